//! A first plan and its improvement, both judged by the checker.
use crate::crates::mapf_checker::check_plan;
use crate::crates::mapf_distance::{Distances, goal_tables};
use crate::crates::mapf_first_plan::{FirstPlan, first_plan};
use crate::crates::mapf_improvement::Improver;
use crate::crates::mapf_model::{OutOfMemory, Plan, Problem};
use crate::rattle_std::alloc::Global;

/// How much work may be done.
#[derive(Clone, Copy, Debug)]
pub struct Work {
    /// How many successors may be tried for a first plan.
    pub successors: u64,
    /// How many improvements are tried.
    pub improvements: u64,
}

/// What became of a problem.
#[derive(Clone, Copy, Debug, PartialEq, Eq)]
pub enum Planned {
    /// The sums of costs of the first plan and of the improved one.
    Found {
        first: u64,
        improved: u64,
    },
    Impossible,
    Stopped,
}

/// The first plan, if one is found after so many successors.
pub fn first_of(problem: &Problem, distances: &[Distances], successors: u64) -> Option<Plan> {
    match first_plan(Global, problem, distances, successors).expect("memory") {
        FirstPlan::Found(plan) => Some(plan),
        FirstPlan::Impossible | FirstPlan::Stopped => None,
    }
}

/// Plans a problem. The plans are valid, and the improved one costs no more.
#[track_caller]
pub fn planned(problem: &Problem, work: Work) -> Result<Planned, OutOfMemory> {
    let distances = goal_tables(Global, problem)?;
    let plan = match first_plan(Global, problem, &distances, work.successors)? {
        FirstPlan::Found(plan) => plan,
        FirstPlan::Impossible => return Ok(Planned::Impossible),
        FirstPlan::Stopped => return Ok(Planned::Stopped),
    };
    let first = check_plan(problem, &plan).expect("a valid plan");
    let mut improver = Improver::of(Global, problem, &distances, &plan)?;
    improver.improve(work.improvements, 0)?;
    let improved = check_plan(problem, &improver.plan()?).expect("a valid plan");
    assert_eq!(improver.cost(), improved, "{problem:?}");
    assert!(improved <= first, "{improved} > {first}, {problem:?}");
    Ok(Planned::Found { first, improved })
}
