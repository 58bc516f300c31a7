//! Plans of problems that are drawn, beside plain search.
use super::planned::{Planned, Work, first_of, planned};
use crate::crates::mapf_cbs::{Answer, solve};
use crate::crates::mapf_checker::check_plan;
use crate::crates::mapf_distance::goal_tables;
use crate::crates::mapf_improvement::Improver;
use crate::crates::mapf_model::{Cell, Plan};
use crate::made::{Shape, each_drawn};
use crate::memory::assert_refusals_told;
use crate::rattle_std::alloc::Global;

const CROWDED: Shape = Shape { width: 6, height: 6, blocked: 10, agents: 16 };

const WORK: Work = Work { successors: 100_000, improvements: 60 };

// There is a plan exactly if plain search finds one, and none is cheaper than that of plain search.
#[test]
fn they_agree_with_plain_search_on_small_grids() {
    for problem in each_drawn(Shape { width: 4, height: 3, blocked: 15, agents: 3 }, 0..100) {
        let answer = planned(&problem, WORK).expect("memory");
        match (answer, solve(Global, &problem, 300).expect("memory")) {
            (Planned::Found { improved, .. }, Answer::Found { plan, .. }) => {
                let least = check_plan(&problem, &plan).expect("a valid plan");
                assert!(improved >= least, "{improved} < {least}, {problem:?}");
            }
            (Planned::Found { .. } | Planned::Impossible, Answer::Limit { .. }) => {}
            (Planned::Impossible, Answer::Impossible { .. }) => {}
            (answer, other) => panic!("{answer:?}, {other:?}, {problem:?}"),
        }
    }
}

#[test]
fn crowded_grids_are_planned() {
    for problem in each_drawn(CROWDED, 0..12) {
        assert_ne!(planned(&problem, WORK), Ok(Planned::Stopped), "{problem:?}");
    }
}

/// The cells of each path.
fn cells_of(plan: &Plan) -> Vec<Vec<Cell>> {
    plan.paths().iter().map(|path| path.cells().to_vec()).collect()
}

#[test]
fn they_are_the_same_twice_whether_improved_at_once_or_in_steps() {
    for problem in each_drawn(CROWDED, 0..8) {
        let distances = goal_tables(Global, &problem).expect("memory");
        let first = || first_of(&problem, &distances, 10_000);
        assert_eq!(first().as_ref().map(cells_of), first().as_ref().map(cells_of), "{problem:?}");
        let Some(plan) = first() else { continue };
        let improved = |each: u64| {
            let mut improver = Improver::of(Global, &problem, &distances, &plan).expect("memory");
            (0..60 / each).for_each(|_| improver.improve(each, 0).expect("memory"));
            cells_of(&improver.plan().expect("memory"))
        };
        assert_eq!(improved(60), improved(1), "{problem:?}");
    }
}

// No improvement is tried of a plan whose sum of costs is as low as the bound.
#[test]
fn they_are_improved_no_more_at_a_bound() {
    for problem in each_drawn(CROWDED, 0..8) {
        let distances = goal_tables(Global, &problem).expect("memory");
        let Some(plan) = first_of(&problem, &distances, 10_000) else { continue };
        let mut improver = Improver::of(Global, &problem, &distances, &plan).expect("memory");
        improver.improve(100, improver.cost()).expect("memory");
        assert_eq!(improver.tried(), 0, "{problem:?}");
    }
}

#[test]
fn they_are_found_or_it_is_told_that_memory_ran_out() {
    let shape = Shape { width: 6, height: 5, blocked: 12, agents: 10 };
    let work = Work { successors: 1000, improvements: 20 };
    for problem in each_drawn(shape, 2..4) {
        assert_refusals_told(|| planned(&problem, work), |_| true);
    }
}
