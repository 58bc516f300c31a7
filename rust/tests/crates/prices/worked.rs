//! Problems whose bound by prices follows from the rules.
use super::bounds::{judged_bound, priced};
use crate::crates::mapf_cbs::{Answer, solve};
use crate::made::{late_meeting, problem_of};
use crate::rattle_std::alloc::Global;

/// Prices show that the cheapest plan is cheapest, and it costs this.
#[track_caller]
fn assert_optimal(rows: &str, ends: &[(u32, u32)], sum: u64) {
    let problem = problem_of(rows, ends);
    let Answer::Found { plan, .. } = solve(Global, &problem, 1000).expect("memory") else { panic!("no plan") };
    assert_eq!(judged_bound(&problem, plan), Some(sum));
}

/// The shortest paths of two agents, of four ticks each, cross at tick 2.
const CROSSING: (&str, [(u32, u32); 2]) = ("@@.@@ @@.@@ ..... @@.@@ @@.@@", [(10, 14), (2, 22)]);

// With a price of one tick on the cell of the crossing each of them pays a tick or waits, and the price was counted
// once.
#[test]
fn one_price_shows_that_one_of_two_waits() {
    let (rows, ends) = CROSSING;
    assert_optimal(rows, &ends, 4 + 4 + 1);
}

// Prices raise the bound by one tick: enough where one is known that is a tick higher, and where it is two ticks higher
// less than two thirds of what it needs.
#[test]
fn prices_that_stay_far_behind_a_known_bound_are_given_up() {
    let problem = problem_of(CROSSING.0, &CROSSING.1);
    assert!(priced(&problem, 4 + 4 + 1, 11).is_some());
    assert!(priced(&problem, 4 + 4 + 2, 11).is_none());
}

// The same crossing twice.
#[test]
fn prices_of_far_crossings_add_up() {
    let rows = "@@.@@@@@.@@ @@.@@@@@.@@ .....@..... @@.@@@@@.@@ @@.@@@@@.@@";
    assert_optimal(rows, &[(22, 26), (2, 46), (28, 32), (8, 52)], 4 * 4 + 2);
}

// Three agents come to a cell at tick 3, and go on behind each other: one waits a tick, and one two. A price of two
// ticks on the cell at tick 3 and one of a tick at tick 4 show it: each agent pays two, and three were counted.
#[test]
fn prices_show_that_three_come_one_after_the_other() {
    let rows = "@@@.@@@ @@@.@@@ @@@.@@@ ....... @@@.@@@ @@@.@@@ @@@.@@@";
    assert_optimal(rows, &[(21, 27), (3, 26), (45, 25)], 6 + 5 + 4 + 1 + 2);
}

// Two agents change places in a corridor of five cells with a niche beside its middle. One waits there until the other
// has passed: it pays two ticks for the way in and out, and one since the other is still in the middle cell. No price
// on a cell or on an edge shows that: only the two of them priced together do.
#[test]
fn two_agents_priced_together_show_what_each_alone_does_not() {
    assert_optimal("..... @@.@@", &[(0, 4), (4, 0)], 4 + 4 + 2 + 1);
}

// A wall keeps the agent from its goal, so no price raises what it pays.
#[test]
fn no_prices_are_tried_where_a_goal_is_cut_off() {
    assert!(priced(&problem_of(".@. .@.", &[(0, 2)]), 0, 10).is_none());
}

// So many cells at so many ticks would take more memory than prices may.
#[test]
fn no_prices_are_tried_on_a_large_grid() {
    assert!(priced(&late_meeting(), 0, 5_000_000).is_none());
}
