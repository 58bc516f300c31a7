//! Distances, tables of constraints, the search of one agent, and the first conflict of a plan.
use crate::crates::mapf_distance::Distances;
use crate::crates::mapf_model::{Bar, Cell, Path, Tick};
use crate::made::grid_of;
use crate::rattle_std::alloc::Global;
use std::fmt::Debug;

#[path = "paths/bars.rs"]
mod bars;
#[path = "paths/conflicts.rs"]
mod conflicts;
#[path = "paths/distances.rs"]
mod distances;
#[path = "paths/drawn.rs"]
mod drawn;
#[path = "paths/searches.rs"]
mod searches;

/// The distances to a cell on the grid of these rows.
fn distances_to(rows: &str, goal: u32) -> Distances {
    Distances::of(Global, &grid_of(rows), Cell(goal)).expect("memory")
}

/// The numbers of a path's cells.
fn numbers(path: &Path) -> Vec<u32> {
    path.cells().iter().map(|cell| cell.0).collect()
}

/// The agent may not be in a cell at a tick.
const fn no_cell(cell: u32, tick: Tick) -> Bar {
    Bar::Cell { cell: Cell(cell), tick }
}

/// The agent may not leave one cell at a tick and be at another one tick later.
const fn no_move(from: u32, to: u32, tick: Tick) -> Bar {
    Bar::Move { from: Cell(from), to: Cell(to), tick }
}

/// A value that has no comparison of its own. It equals those that print the same.
#[derive(Debug)]
struct Printed<T>(T);

impl<T: Debug> PartialEq for Printed<T> {
    fn eq(&self, other: &Printed<T>) -> bool {
        format!("{self:?}") == format!("{other:?}")
    }
}
