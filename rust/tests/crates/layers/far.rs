//! Agents on larger grids, whose goals may be cut off for ever.
use super::case::set_of;
use crate::crates::mapf_distance::Distances;
use crate::crates::mapf_layers::{LayerTask, Workspace};
use crate::crates::mapf_lemmas::PathConstraint;
use crate::crates::mapf_model::{Agent, Cell, Neighbourhoods};
use crate::made::grid;
use crate::rattle_std::alloc::Global;

/// The cost of an agent that goes from the first to the last cell of an open grid of this side under these constraints.
/// None if it can't arrive.
fn cost_under(side: u32, constraints: impl IntoIterator<Item = PathConstraint>) -> Option<u32> {
    let grid = grid(side as usize, side as usize, |_, _| true);
    let (start, goal) = (Cell(0), Cell(side * side - 1));
    let task = LayerTask {
        neighbourhoods: &Neighbourhoods::of(&grid),
        distances: &Distances::of(Global, &grid, goal).expect("memory"),
        agent: Agent { start, goal },
        constraints: &set_of(constraints),
    };
    let mut workspace = Workspace::of(Global, (side * side) as usize).expect("memory");
    Some(workspace.layers(Global, &task, 0).expect("memory")?.cost())
}

/// The agent isn't in the cell from tick 5 on.
fn clear(cell: u32) -> PathConstraint {
    PathConstraint::Clear { cell: Cell(cell), tick: 5 }
}

#[test]
fn it_is_soon_known_that_an_agent_cannot_arrive() {
    assert_eq!(cost_under(100, [9899].map(clear)), Some(198));
    assert_eq!(cost_under(100, [9899, 9998].map(clear)), None);
}

/// The cost of an agent among three walls under more constraints. Each wall has a gap at the other end than the one
/// before. Without these constraints it is in the first gap at tick 18, and at its goal 30 ticks later.
fn cost_among_walls(more: impl IntoIterator<Item = PathConstraint>) -> Option<u32> {
    let walls = (0..12).flat_map(|x| [78 + x, 105 + x, 130 + x]).map(clear);
    cost_under(13, walls.chain(more))
}

/// The first gap, and the cell behind it.
const GAP: Cell = Cell(90);
const BEHIND: Cell = Cell(103);

#[test]
fn an_agent_goes_around_walls_and_waits_until_it_may_pass() {
    let not_in_gap = |tick| PathConstraint::NotAt { cell: GAP, tick };
    let not_through = |tick| PathConstraint::NotMove { from: GAP, to: BEHIND, tick };
    assert_eq!(cost_among_walls([]), Some(48));
    // It comes into the gap at tick 41; it has to leave the gap and to come again at tick 20.
    assert_eq!(cost_among_walls((0..41).map(not_in_gap)), Some(41 + 30));
    assert_eq!(cost_among_walls([not_through(18), not_in_gap(19)]), Some(20 + 30));
    // The gap has to be clear before the agent may go on.
    let closed = PathConstraint::Clear { cell: GAP, tick: 30 };
    assert_eq!(cost_among_walls((0..29).map(not_through).chain([closed])), Some(29 + 1 + 29));
    assert_eq!(cost_among_walls((0..30).map(not_through).chain([closed])), None);
}
