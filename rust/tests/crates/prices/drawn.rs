//! Bounds by prices of problems that are drawn, beside plain search, and beside valid plans.
use super::bounds::{Known, judged_bound, priced};
use crate::crates::mapf_cbs::{Answer, solve};
use crate::crates::mapf_distance::goal_tables;
use crate::crates::mapf_groups::{Outcome, Priced, search_below};
use crate::crates::mapf_model::{Claim, Plan, Problem, Unwatched};
use crate::groups::answers::{accepted, cert_text};
use crate::made::{Shape, each_drawn};
use crate::plans::planned::first_of;
use crate::rattle_std::alloc::Global;

const CROWDED: Shape = Shape { width: 6, height: 6, blocked: 10, agents: 16 };

/// No bound is above the least sum of costs of a problem.
fn assert_bounds(problem: Problem) {
    if let Answer::Found { plan, .. } = solve(Global, &problem, 300).expect("memory") {
        judged_bound(&problem, plan);
    }
}

#[test]
fn they_bound_the_cheapest_plans() {
    let shape = Shape { width: 4, height: 3, blocked: 15, agents: 3 };
    each_drawn(shape, 0..1000).for_each(assert_bounds);
}

#[test]
fn they_bound_the_cheapest_plans_in_narrow_places() {
    let shape = Shape { width: 5, height: 3, blocked: 20, agents: 4 };
    each_drawn(shape, 0..1000).for_each(assert_bounds);
}

/// A valid plan, if one is found quickly.
fn quick_plan(problem: &Problem) -> Option<Plan> {
    first_of(problem, &goal_tables(Global, problem).expect("memory"), 100_000)
}

#[test]
fn they_bound_plans_on_crowded_grids() {
    for problem in each_drawn(CROWDED, 0..40) {
        if let Some(plan) = quick_plan(&problem) {
            assert!(judged_bound(&problem, plan).is_some(), "{problem:?}");
        }
    }
}

// With 1,300 splits prices are tried before the limit, and the search goes on.
#[test]
fn a_search_for_a_cheaper_plan_goes_on_beside_them() {
    for problem in each_drawn(CROWDED, 0..6) {
        let Some(plan) = quick_plan(&problem) else { continue };
        let known = Known::of(&problem, plan);
        match search_below(Global, &problem, 1300, known.cost, &mut Unwatched).expect("memory") {
            Outcome::Limit { bound, parts, .. } => {
                known.assert_shown(&problem, &Priced { bound: bound.min(known.cost), parts });
            }
            outcome => {
                let sum = accepted(&problem, outcome).sum();
                assert!(sum.is_some_and(|sum| sum < known.cost), "{sum:?}, {problem:?}");
            }
        }
    }
}

#[test]
fn they_are_the_same_twice() {
    let shape = Shape { width: 5, height: 4, blocked: 12, agents: 6 };
    for problem in each_drawn(shape, 2..4) {
        let cert = || {
            let found = priced(&problem, 0, 60)?;
            Some(cert_text(&problem, Claim::Bound(found.bound), &found.parts).expect("memory"))
        };
        assert_eq!(cert(), cert());
    }
}
