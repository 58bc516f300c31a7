//! Answers of both searches, and options.
use super::{OPEN, assert_told, crossing, example, problem};
use mapf::{Answer, Error, Options, Outcome, Plan, Problem, Search, Verdict};
use mapf::{check, check_paths, solve, solve_watched, validate, validate_paths};

/// What is wanted of a search.
#[derive(Clone, Copy, Debug)]
enum Wanted {
    Optimal(u64),
    Within(u64, u64),
    Bound(u64),
    Impossible,
}

fn cbs(splits: u32) -> Options {
    Options::default().search(Search::Cbs).splits(splits)
}

fn cbsh(splits: u32) -> Options {
    Options::default().search(Search::Cbsh).splits(splits)
}

/// Three agents in nine cells: `tests/cases/search-cbsh-improved-by-nothing`.
fn three() -> Problem {
    problem(&OPEN, &[((2, 1), (0, 2)), ((1, 2), (2, 2)), ((1, 0), (1, 1))])
}

fn corridor() -> Problem {
    problem(&["..."], &[((0, 0), (2, 0)), ((2, 0), (0, 0))])
}

#[test]
fn answers_are_right_and_checked() {
    use Wanted::{Bound, Impossible, Optimal, Within};

    let shared_goal = problem(&["..."], &[((0, 0), (1, 0)), ((2, 0), (1, 0))]);
    let shared_start = problem(&["..."], &[((0, 0), (1, 0)), ((0, 0), (2, 0))]);
    let wall = problem(&[".@."], &[((0, 0), (2, 0))]);
    let table = [
        (crossing(), cbs(10), Optimal(5)),
        (crossing(), cbs(0), Bound(4)),
        (crossing(), cbsh(10), Optimal(5)),
        (crossing(), Options::default(), Optimal(5)),
        (three(), cbsh(0).improvements(0), Within(6, 13)),
        (three(), cbsh(0).improvements(1), Within(6, 10)),
        (shared_goal.clone(), cbs(10), Impossible),
        (shared_goal, cbsh(10), Impossible),
        (shared_start.clone(), cbs(1), Impossible),
        (shared_start, cbsh(0), Impossible),
        (wall.clone(), cbs(0), Impossible),
        (wall, cbsh(0), Impossible),
        (corridor(), cbsh(0), Impossible),
        (problem(&["."], &[((0, 0), (0, 0))]), cbsh(0), Optimal(0)),
        (example("random-32-32", 16), cbs(100), Optimal(391)),
        (example("random-32-32", 16), cbsh(100), Optimal(391)),
        (example("empty-8-8", 1), cbsh(1_000), Optimal(6)),
        (example("empty-8-8", 4), cbs(1_000), Optimal(30)),
        (example("empty-8-8", 6), cbsh(1_000), Optimal(43)),
    ];
    for (problem, options, wanted) in table {
        let answer = solve(&problem, &options).expect("an answer");
        assert_answer(&problem, &answer, wanted);
        assert_eq!(solve(&problem, &options), Ok(answer), "the same again");
    }
}

#[track_caller]
fn assert_answer(problem: &Problem, answer: &Answer, wanted: Wanted) {
    let (cost, bound, verdict) = match wanted {
        Wanted::Optimal(cost) => (Some(cost), Some(cost), Verdict::Optimal { cost }),
        Wanted::Within(bound, cost) => (Some(cost), Some(bound), Verdict::Within { bound, cost }),
        Wanted::Bound(bound) => (None, Some(bound), Verdict::Bound { bound }),
        Wanted::Impossible => (None, None, Verdict::Impossible),
    };
    let outcome = &answer.outcome;
    assert_eq!((outcome.cost(), outcome.bound()), (cost, bound), "{wanted:?}");
    let is_of_kind = match wanted {
        Wanted::Optimal(_) => matches!(outcome, Outcome::Optimal { .. }),
        Wanted::Within(..) => matches!(outcome, Outcome::Within { .. }),
        Wanted::Bound(_) => matches!(outcome, Outcome::Bound { .. }),
        Wanted::Impossible => matches!(outcome, Outcome::Impossible),
    };
    assert!(is_of_kind, "{outcome:?}, wanted {wanted:?}");
    assert_eq!(answer.refused, None);
    assert!(answer.plan_text.is_ascii() && answer.certificate.is_ascii());
    assert_eq!(check(problem, &answer.plan_text, &answer.certificate), Ok(verdict));
    assert_eq!(outcome.plan().is_some(), cost.is_some());
    if let (Some(plan), Some(cost)) = (outcome.plan(), cost) {
        assert_plan(problem, answer, plan, cost);
        assert_eq!(check_paths(problem, plan.paths(), &answer.certificate), Ok(verdict));
    }
}

#[track_caller]
fn assert_plan(problem: &Problem, answer: &Answer, plan: &Plan, cost: u64) {
    assert_eq!(plan.cost(), cost);
    assert_eq!(plan.to_text().as_ref(), Ok(&answer.plan_text));
    assert_eq!(Plan::from_text(problem, &answer.plan_text).as_ref(), Ok(plan));
    assert_eq!(Plan::new(problem, plan.paths()).as_ref(), Ok(plan));
    assert_eq!(validate(problem, &answer.plan_text), Ok(cost));
    assert_eq!(validate_paths(problem, plan.paths()), Ok(cost));
    for (path, (start, goal)) in plan.paths().iter().zip(problem.starts().iter().zip(problem.goals())) {
        assert_eq!((path.first(), path.last()), (Some(start), Some(goal)));
        assert!(path.iter().all(|&cell| problem.is_free(cell)));
    }
}

#[test]
fn plain_search_doesnt_see_that_a_corridor_is_too_narrow() {
    let answer = solve(&corridor(), &cbs(50)).expect("an answer");
    assert!(matches!(answer.outcome, Outcome::Bound { .. }), "{:?}", answer.outcome);
    assert!(answer.outcome.bound() >= Some(4));
}

#[test]
fn options_out_of_range_are_told() {
    for splits in [100_001, u32::MAX] {
        let error = solve(&crossing(), &Options::default().splits(splits)).expect_err("too many");
        assert_eq!(error, Error::Splits { splits });
        assert_told(error, &format!("{splits} splits are asked for, and there may be 0 to 100,000"), None);
    }
    for improvements in [1_000_001, u32::MAX] {
        for search in [Search::Cbs, Search::Cbsh] {
            let options = Options::default().search(search).improvements(improvements);
            let error = solve(&crossing(), &options).expect_err("too many");
            assert_eq!(error, Error::Improvements { improvements });
            let words = format!("{improvements} improvements are asked for, and there may be 0 to 1,000,000");
            assert_told(error, &words, None);
        }
    }
    let most = Options::default().splits(100_000).improvements(1_000_000).search(Search::Cbs);
    assert_eq!(solve(&crossing(), &most).expect("an answer").outcome.cost(), Some(5));
}

#[test]
fn options_are_as_documented() {
    let options = Options::default();
    assert_eq!((options.search, options.splits, options.improvements), (Search::Cbsh, 10_000, None));
    let changed = Options::default().search(Search::Cbs).splits(7).improvements(8);
    assert_eq!((changed.search, changed.splits, changed.improvements), (Search::Cbs, 7, Some(8)));
    // 50 improvements for each agent are the default.
    let named = cbsh(0).improvements(150);
    assert_eq!(solve(&three(), &named), solve(&three(), &cbsh(0)));
}

#[test]
fn progress_is_told_every_256_splits() {
    // Two agents can't pass each other in a corridor, so plain search uses up its splits.
    let mut told = Vec::new();
    let answer = solve_watched(&corridor(), &cbs(1_000), |progress| told.push(progress)).expect("an answer");
    let splits: Vec<u32> = told.iter().map(|progress| progress.splits).collect();
    assert_eq!(splits, [256, 512, 768]);
    assert!(told.iter().all(|progress| progress.cost.is_none() && progress.open > 0));
    assert!(told.iter().map(|progress| progress.bound).is_sorted());
    assert!(told.last().map(|progress| progress.bound) <= answer.outcome.bound());
    assert_eq!(solve(&corridor(), &cbs(1_000)), Ok(answer));
}

#[test]
fn values_may_cross_threads() {
    fn is_free_to_go<T: Send + Sync>() {}
    is_free_to_go::<(Problem, Options, Answer, Error, mapf::Dispatcher)>();
    let problem = crossing();
    let costs = std::thread::scope(|scope| {
        let workers: Vec<_> = (0..4).map(|_| scope.spawn(|| solve(&problem, &cbsh(10)))).collect();
        workers.into_iter().map(|worker| worker.join()).collect::<Vec<_>>()
    });
    for answer in costs {
        assert_eq!(answer.expect("no panic").expect("an answer").outcome.cost(), Some(5));
    }
}
