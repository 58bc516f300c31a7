//! Problems whose least sum of costs follows from the rules.
use super::planned::{Planned, Work, planned};
use crate::crates::mapf_model::Problem;
use crate::made::{corridor, passing, problem_of};

const WORK: Work = Work { successors: 100_000, improvements: 200 };

/// The problem has a plan, and its improvement costs this.
#[track_caller]
fn assert_cost(problem: &Problem, cost: u64) {
    match planned(problem, WORK).expect("memory") {
        Planned::Found { improved, .. } => assert_eq!(improved, cost),
        other => panic!("{other:?}"),
    }
}

#[test]
fn one_agent_lets_another_pass_in_a_corridor() {
    for length in 3..13 {
        assert_cost(&corridor(length), u64::from(length * 2 + length % 2));
    }
}

#[test]
fn agents_pass_a_goal() {
    for count in 1..7 {
        assert_cost(&passing(count), u64::from((count + 1) * (count + 2)));
    }
}

// All agents of a square without a free cell go around by one cell.
#[test]
fn a_full_square_turns() {
    assert_cost(&problem_of(".. ..", &[(0, 1), (1, 3), (3, 2), (2, 0)]), 4);
}

#[test]
fn all_rest_where_they_have_arrived() {
    assert_cost(&problem_of("... ...", &[(0, 0), (4, 4), (5, 5)]), 0);
}

/// Problems without a valid plan: a corridor without a cell beside it; a square in which three agents can only turn
/// around, so that two of them can't change places; two goals in one cell; two starts in one cell; and a wall between
/// start and goal.
const HOPELESS: [(&str, &[(u32, u32)]); 5] = [
    ("....", &[(0, 3), (3, 0)]),
    (".. ..", &[(0, 1), (1, 0), (2, 2)]),
    ("...", &[(0, 1), (2, 1)]),
    ("...", &[(1, 0), (1, 2)]),
    (".@.", &[(0, 2)]),
];

#[test]
fn it_is_told_where_no_plan_is_valid() {
    for (rows, ends) in HOPELESS {
        assert_eq!(planned(&problem_of(rows, ends), WORK), Ok(Planned::Impossible), "{rows} {ends:?}");
    }
}

#[test]
fn the_search_stops_at_its_bound_on_work() {
    let work = Work { successors: 5, improvements: 0 };
    assert_eq!(planned(&corridor(9), work), Ok(Planned::Stopped));
}
