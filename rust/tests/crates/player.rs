//! The player, the dispatcher, and requests that agents make of it.
#[path = "player/events.rs"]
mod events;
#[path = "player/following.rs"]
mod following;
#[path = "player/playing.rs"]
mod playing;

use crate::crates::mapf_checker::check_plan;
use crate::crates::mapf_model::devices::{FuseSink, Pace};
use crate::crates::mapf_model::{Grid, Plan, Problem};
use crate::made::{grid, plan_of, problem_on};
use crate::rattle_std::alloc::Global;

/// A problem with a valid plan.
struct Given {
    problem: Problem,
    plan: Plan,
}

impl Given {
    /// The problem on a grid in which each agent goes from the first cell of its path to the last, and the plan of
    /// these paths, each a list of cell numbers.
    #[track_caller]
    fn on(grid: Grid, paths: &[&[u32]]) -> Given {
        let ends: Vec<(u32, u32)> = paths.iter().map(|path| (path[0], path[path.len() - 1])).collect();
        let given = Given { problem: problem_on(grid, &ends), plan: plan_of(paths) };
        check_plan(&given.problem, &given.plan).expect("a valid plan");
        given
    }

    /// Two agents that cross on an open grid of nine cells, one of which waits first.
    fn crossing() -> Given {
        Given::on(grid(3, 3, |_, _| true), &[&[3, 3, 4, 5], &[1, 4, 7]])
    }
}

/// A sink with so much room, which fails after so many calls, or only where it is full.
fn sink_of(room: usize, pace: Pace, calls: Option<u64>) -> FuseSink {
    FuseSink::with_room(Global, room, pace, calls).expect("memory")
}
