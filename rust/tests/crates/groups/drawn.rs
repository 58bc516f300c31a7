//! Searches for plans of problems that are drawn, beside plain search.
use super::answers::{searched, texts_of};
use crate::crates::mapf_cbs::{Answer, solve};
use crate::crates::mapf_checker::check_plan;
use crate::crates::mapf_groups::search;
use crate::crates::mapf_lemma_texts::WriteFault;
use crate::crates::mapf_model::{Claim, OutOfMemory, Problem};
use crate::made::{Shape, drawn, each_drawn};
use crate::memory::assert_refusals_told;
use crate::rattle_std::alloc::Global;

/// Where both searches end, they say the same, and a bound is no greater than the least sum of costs. Plain search may
/// make another number of splits.
fn assert_agrees(problem: &Problem, limit: u32, plain_limit: u32) {
    let claim = searched(problem, limit).claim;
    let least = match solve(Global, problem, plain_limit).expect("memory") {
        Answer::Found { plan, .. } => Some(check_plan(problem, &plan).expect("a valid plan")),
        Answer::Impossible { .. } => None,
        Answer::Limit { .. } => return,
    };
    match claim {
        Claim::Cost(cost) => assert_eq!(Some(cost), least, "{problem:?}"),
        Claim::Impossible => assert_eq!(None, least, "{problem:?}"),
        Claim::Bound(bound) => assert!(least.is_none_or(|least| bound <= least), "{bound}, {least:?}, {problem:?}"),
    }
}

#[test]
fn it_agrees_with_plain_search_on_small_grids() {
    let shape = Shape { width: 4, height: 3, blocked: 15, agents: 3 };
    each_drawn(shape, 0..100).for_each(|problem| assert_agrees(&problem, 300, 300));
}

#[test]
fn it_agrees_with_plain_search_of_more_agents() {
    let shape = Shape { width: 6, height: 6, blocked: 10, agents: 6 };
    each_drawn(shape, 0..20).for_each(|problem| assert_agrees(&problem, 500, 500));
}

// So many agents are searched in groups. Plain search seldom ends for them.
#[test]
fn it_agrees_with_plain_search_where_groups_are_searched() {
    let shape = Shape { width: 10, height: 10, blocked: 12, agents: 16 };
    each_drawn(shape, 0..40).for_each(|problem| assert_agrees(&problem, 300, 5000));
}

#[test]
fn its_bound_never_falls_as_the_limit_rises() {
    let shape = Shape { width: 6, height: 6, blocked: 10, agents: 12 };
    for problem in each_drawn(shape, 3..7) {
        let sums = (0..10).map(|turn| searched(&problem, turn * 3).sum().unwrap_or(u64::MAX));
        assert!(sums.is_sorted(), "{problem:?}");
    }
}

#[test]
fn it_writes_the_same_texts_twice() {
    let wide = Shape { width: 9, height: 9, blocked: 15, agents: 14 };
    let crowded = Shape { width: 6, height: 5, blocked: 12, agents: 13 };
    for (shape, seeds, limit) in [(wide, 0..5, 200), (crowded, 2..4, 3)] {
        for problem in each_drawn(shape, seeds) {
            assert_eq!(searched(&problem, limit), searched(&problem, limit));
        }
    }
}

/// The search answers the same where a request for memory is refused, or it tells that memory ran out.
fn assert_tells(problem: &Problem) {
    let call = || {
        let outcome = search(Global, problem, 3).map_err(|OutOfMemory| WriteFault::Memory)?;
        texts_of(problem, outcome)
    };
    assert_refusals_told(call, |fault| matches!(fault, WriteFault::Memory));
}

// Of this problem groups are searched, some nodes have no plan, and a plan is found.
#[test]
fn it_finds_a_plan_or_tells_that_memory_ran_out() {
    let problem = drawn(Shape { width: 7, height: 6, blocked: 10, agents: 14 }, 60).expect("a problem");
    assert!(matches!(searched(&problem, 3).claim, Claim::Cost(_)));
    assert_tells(&problem);
}

// Of this one groups are searched until the limit is reached.
#[test]
fn it_shows_a_bound_or_tells_that_memory_ran_out() {
    let problem = drawn(Shape { width: 6, height: 5, blocked: 12, agents: 13 }, 29).expect("a problem");
    assert!(matches!(searched(&problem, 3).claim, Claim::Bound(_)));
    assert_tells(&problem);
}
