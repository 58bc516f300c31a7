//! Trees of cases, as the crate `mapf_cases` judges them: what stands at each node, which nodes are refused, and when a
//! tree is over. What is wanted follows from docs/FORMATS.md, section 9.
#[path = "cases/standing.rs"]
mod standing;
#[path = "cases/trees.rs"]
mod trees;

use crate::crates::mapf_lemmas::{AgentConstraint, PathConstraint};
use crate::crates::mapf_model::{Cell, Tick};

fn not_at(cell: u32, tick: Tick) -> PathConstraint {
    PathConstraint::NotAt { cell: Cell(cell), tick }
}

fn not_move(from: u32, to: u32, tick: Tick) -> PathConstraint {
    PathConstraint::NotMove { from: Cell(from), to: Cell(to), tick }
}

fn clear(cell: u32, tick: Tick) -> PathConstraint {
    PathConstraint::Clear { cell: Cell(cell), tick }
}

fn most(ticks: u32) -> PathConstraint {
    PathConstraint::Most { ticks }
}

fn least(ticks: u32) -> PathConstraint {
    PathConstraint::Least { ticks }
}

/// A constraint of this agent.
fn of(agent: u32, constraint: PathConstraint) -> AgentConstraint {
    AgentConstraint { agent, constraint }
}
