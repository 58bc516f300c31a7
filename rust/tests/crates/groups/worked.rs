//! Problems whose least sum of costs follows from the rules.
use super::answers::searched;
use crate::crates::mapf_model::{Claim, Problem};
use crate::made::{corridor, grid, passing, problem_of, problem_on};

/// The search finds a plan of this sum of costs with at most so many splits.
#[track_caller]
fn assert_found(problem: &Problem, limit: u32, sum: u64) {
    assert_eq!(searched(problem, limit).claim, Claim::Cost(sum));
}

#[test]
fn one_agent_lets_another_pass_in_a_corridor() {
    for length in 3..13 {
        assert_found(&corridor(length), 4, u64::from(length * 2 + length % 2));
    }
}

/// Two agents cross an open square of so many cells a side, the one from left to right, the other from top to bottom.
/// Each meets the other's path wherever it goes, at the same tick, so one of them waits once.
fn crossing(side: u32) -> Problem {
    let width = side + 2;
    let ends = [(width, side * width + side + 1), (1, (side + 1) * width + side)];
    problem_on(grid(width as usize, width as usize, |_, _| true), &ends)
}

#[test]
fn one_agent_waits_before_a_square() {
    for side in 2..13 {
        assert_found(&crossing(side), 2, u64::from(side * 4 + 1));
    }
}

#[test]
fn agents_pass_a_goal() {
    for count in 1..7 {
        assert_found(&passing(count), 4, u64::from((count + 1) * (count + 2)));
    }
}

/// Five places without a way from one to another. In each of them three agents come to a crossing at tick 2, and leave
/// it by the same cell, so they pay one tick and two ticks more than alone. The splits of the places add up.
const FAR_GROUPS: &str = "\
@@.@@@@@.@@@@@.@@@@@.@@@@@.@@
@@.@@@@@.@@@@@.@@@@@.@@@@@.@@
.....@.....@.....@.....@.....
@@.@@@@@.@@@@@.@@@@@.@@@@@.@@
@@.@@@@@.@@@@@.@@@@@.@@@@@.@@
@@.@@@@@.@@@@@.@@@@@.@@@@@.@@";

#[test]
fn what_far_groups_cost_adds_up() {
    let place = |column: u32| [(column + 58, column + 147), (column + 2, column + 118), (column + 62, column + 89)];
    let ends: Vec<(u32, u32)> = (0..5).flat_map(|number| place(number * 6)).collect();
    assert_found(&problem_of(FAR_GROUPS, &ends), 20, 75);
}

// The corridors have no cell beside them.
#[test]
fn no_plan_is_valid_where_two_agents_cannot_pass() {
    for length in 2..11 {
        let problem = problem_of(&".".repeat(length as usize), &[(0, length - 1), (length - 1, 0)]);
        assert_eq!(searched(&problem, 20).claim, Claim::Impossible, "{length}");
    }
}

// A warehouse has shelves of 10 by 2 cells, and aisles of one cell between them. In each of 19 aisles, ten agents go 12
// cells to the right, one behind the other. Ten more start in every other aisle and go 7 cells down. Each meets one of
// the others at tick 6, so one of the two waits. All have just one shortest path.
#[test]
fn two_hundred_agents_that_hardly_meet_are_solved() {
    let warehouse = grid(161, 63, |x, y| y % 3 == 0 || x % 11 == 0);
    let along = (2..21).flat_map(|aisle| (0..10).map(move |place| aisle * 3 * 161 + place * 16));
    let down = (0..10).map(|place| place * 6 * 161 + 22);
    let ends: Vec<(u32, u32)> =
        along.map(|start| (start, start + 12)).chain(down.map(|start| (start, start + 7 * 161))).collect();
    assert_found(&problem_on(warehouse, &ends), 10, 190 * 12 + 10 * 7 + 10);
}

// Three agents can only turn around in a square, so two of them can't change places while the third comes back to its
// own. Without the third, they can.
#[test]
fn no_plan_is_found_where_three_agents_keep_their_order() {
    let problem = problem_of(".. ..", &[(0, 1), (1, 0), (2, 2)]);
    assert!(!matches!(searched(&problem, 20).claim, Claim::Cost(_)));
}

/// The starts and goals of agents.
type Ends = &'static [(u32, u32)];

/// Problems of which it is plain before any search that no plan is valid, each with its certificate: two goals in one
/// cell, a wall between start and goal, and two starts in one cell.
const PLAIN: [(&str, Ends, &str); 3] = [
    (".@.", &[(0, 2), (2, 2)], "mapf-cert 3\nagents 2\nclaim impossible\nprices 0\nlemmas 0\nclash 0 1\nend\n"),
    (".@.", &[(0, 2)], "mapf-cert 3\nagents 1\nclaim impossible\nprices 0\nlemmas 0\nleaf 0 0 -\nend\n"),
    (
        "...",
        &[(1, 0), (1, 2)],
        "mapf-cert 3\nagents 2\nclaim impossible\nprices 0\nlemmas 1\ntwo 0 1 0 0 0 1 -\n\
         at 1,0 1,0 0 inf\nleaf 0 1 -\ngroup 1 1\nuse 0 1\nend\n",
    ),
];

#[test]
fn it_ends_before_any_search() {
    for (rows, ends, cert) in PLAIN {
        let texts = searched(&problem_of(rows, ends), 1);
        assert_eq!(texts.claim, Claim::Impossible, "{rows} {ends:?}");
        assert_eq!(str::from_utf8(&texts.cert), Ok(cert), "{rows} {ends:?}");
    }
}
