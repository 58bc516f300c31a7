//! Searches on large grids, whose paths are long.
use super::answers::{Search, answer_of, text_of};
use crate::crates::mapf_conflicts::{Conflict, first_conflict};
use crate::crates::mapf_distance::Distances;
use crate::crates::mapf_model::{Cell, Plan};
use crate::made::{grid, late_meeting, list, problem_on};
use crate::rattle_std::alloc::Global;

#[test]
fn the_corridor_has_its_cells_and_its_agents_meet_late() {
    let problem = late_meeting();
    let grid = problem.grid();
    assert_eq!((0..2048 * 2047).filter(|&cell| grid.is_free(Cell(cell))).count(), 2_098_175);
    let paths = problem.agents().iter().map(|agent| {
        let distances = Distances::of(Global, grid, agent.goal).expect("memory");
        distances.descend(Global, agent.start).expect("memory")
    });
    let plan = Plan::of(list(paths)).expect("a plan");
    let middle = Conflict::Vertex { i: 0, j: 1, cell: Cell(1023 * 2048), tick: 1_049_087 };
    assert_eq!(first_conflict(&plan), Some(middle));
}

#[test]
fn each_search_stops_at_a_conflict_that_is_too_late() {
    let problem = late_meeting();
    for search in [Search::Unnamed, Search::ByTick, Search::ByList, Search::Plain] {
        let text = text_of(&answer_of(search, &problem, 0));
        assert_eq!(text, "limit ticks bound 4196348 / leaf", "{search:?}");
    }
}

// Two agents block each other in a row of two cells, and eighteen others go along rows of 2,048 cells. Of the nodes one
// has the sum 2 for the two agents, and 2^n each have the sums 2n + 1 and 2n + 2: 4,093 have at most 22, so that the
// 5,001st has 23. Each other agent adds 2,047.
#[test]
fn keeps_the_cost_of_a_split() {
    let row = 19 * 2048;
    let mut ends = vec![(row, row + 1), (row + 1, row)];
    ends.extend((0..18).map(|lane| (lane * 2048, lane * 2048 + 2047)));
    let problem = problem_on(grid(2048, 20, |x, y| y < 18 || (y == 19 && x < 2)), &ends);
    let text = text_of(&answer_of(Search::Unnamed, &problem, 5000));
    assert!(text.starts_with("limit 5000 bound 36869 / "), "{}", &text[..40]);
}
