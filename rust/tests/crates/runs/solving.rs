//! The answers of plain search, by either run, and of the second search. What they write is checked.
use crate::crates::mapf_app::{Answered, Kind, Search, Verdict};
use crate::crates::mapf_model::Cause;
use crate::problems::{AT_REST, CORRIDOR, CROSSING, EXCHANGE, Given, NICHE, ROTATION, SHARED_GOAL, SHARED_START, WALL};
use crate::running::{Solved, check, solve, solve_by};

/// Problems, with enough splits for plain search, and its answers.
const SOLVED: [(Given, u32, Kind); 9] = [
    (AT_REST, 0, Kind::Found(0)),
    (CORRIDOR, 0, Kind::Found(2)),
    (CROSSING, 10, Kind::Found(5)),
    (CROSSING, 1, Kind::Found(5)),
    (NICHE, 5, Kind::Found(4)),
    (SHARED_START, 1, Kind::Impossible),
    (SHARED_GOAL, 0, Kind::Impossible),
    (WALL, 0, Kind::Impossible),
    (ROTATION, 0, Kind::Found(4)),
];

/// Problems, with the least sum of an open node after no split, after one, and so on. Plain search needs more splits.
const BOUNDS: [(Given, &[u64]); 4] =
    [(CROSSING, &[4]), (NICHE, &[2, 3, 4, 4, 4]), (SHARED_START, &[3]), (EXCHANGE, &[2, 3, 3, 4])];

/// Each problem with a number of splits that is too small, and the answer of plain search.
fn stopped() -> impl Iterator<Item = (Given, u32, Kind)> {
    BOUNDS.into_iter().flat_map(|(given, bounds)| {
        let kinds = (0..).zip(bounds).map(|(splits, &bound)| (splits, Cause::Splits(splits), bound));
        kinds.map(move |(splits, cause, bound)| (given, splits, Kind::Limit { cause, bound }))
    })
}

/// What was written with an answer is accepted with the verdict that belongs to it.
#[track_caller]
fn assert_accepted<A>(given: &Given, kind: Kind, written: &Solved<A>) {
    let verdict = match kind {
        Kind::Found(cost) => Verdict::Optimal(cost),
        Kind::Impossible => Verdict::Impossible,
        Kind::Limit { bound, .. } => Verdict::Bound(bound),
        Kind::Within { bound, cost } => Verdict::Within { bound, cost },
    };
    assert_eq!(check(given, &written.plan, &written.cert), Ok(verdict), "{given:?}, {kind:?}");
}

#[test]
fn either_run_of_plain_search_answers_and_writes_the_same() {
    for (given, limit, kind) in SOLVED.into_iter().chain(stopped()) {
        let plain = solve(&given, limit);
        assert_eq!(plain.answer, Ok(kind), "{given:?} within {limit} splits");
        assert_accepted(&given, kind, &plain);
        let answer = Ok(Answered { kind, refused: None });
        let chosen = Solved { answer, plan: plain.plan, cert: plain.cert };
        assert_eq!(solve_by(&given, Search::Cbs, limit), chosen, "{given:?} within {limit} splits");
    }
}

/// The second search gives this answer, which is accepted, and gives it again.
#[track_caller]
fn assert_second(given: &Given, limit: u32, kind: Kind) {
    let run = solve_by(given, Search::Cbsh, limit);
    assert_eq!(run.answer, Ok(Answered { kind, refused: None }), "{given:?} within {limit} splits");
    assert_accepted(given, kind, &run);
    assert_eq!(solve_by(given, Search::Cbsh, limit), run, "{given:?} within {limit} splits");
}

#[test]
fn the_second_search_answers_as_plain_search_does() {
    for (given, limit, kind) in SOLVED {
        assert_second(&given, limit, kind);
    }
}

// The first plan of two agents is optimal, and their joint states show it. Or the two have one start, or can't pass each
// other.
#[test]
fn the_second_search_answers_for_two_agents_without_a_split() {
    for (given, kind) in [
        (CROSSING, Kind::Found(5)),
        (NICHE, Kind::Found(4)),
        (SHARED_START, Kind::Impossible),
        (EXCHANGE, Kind::Impossible),
    ] {
        assert_second(&given, 0, kind);
    }
}
