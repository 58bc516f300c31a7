//! Each request for memory of each call is refused in turn, alone and with all later ones: the call says so, or it
//! answers the same.
use super::refusing::{Refused, refusing};
use super::{CROSSING_CERTIFICATE, CROSSING_PLAN, crossing};
use mapf::{Dispatcher, Error, Options, Plan, Problem, Search};
use std::fmt::Debug;

/// Makes a call again and again, and refuses another request each time, until it makes no more of them.
#[track_caller]
fn assert_refusals_told<T: PartialEq + Debug>(name: &str, call: impl Fn() -> Result<T, Error>) {
    let wanted = call().expect(name);
    for refused in [Refused::One, Refused::All] {
        for granted in 0.. {
            let (answer, count) = refusing(refused, granted, &call);
            if count == 0 {
                assert!(granted > 0, "{name} takes no memory");
                assert_eq!(answer.as_ref(), Ok(&wanted), "{name}");
                break;
            }
            match answer {
                Ok(answer) => assert_eq!(answer, wanted, "{name} without request {granted}"),
                Err(error) => assert_eq!(error, Error::Memory, "{name} without request {granted}"),
            }
        }
    }
}

#[test]
fn want_of_memory_is_told() {
    let problem = crossing();
    let (starts, goals) = (problem.starts(), problem.goals());
    let paths = [vec![(0, 1), (0, 1), (1, 1), (2, 1)], vec![(1, 0), (1, 1), (1, 2)]];
    let plan = Plan::new(&problem, &paths).expect("a plan");
    assert_refusals_told("new", || Problem::new(&[[true; 3]; 3], starts, goals));
    assert_refusals_told("from_rows", || Problem::from_rows(&["...", "..."], &[(0, 0)], &[(2, 1)]));
    assert_refusals_told("validate", || mapf::validate(&problem, CROSSING_PLAN));
    assert_refusals_told("validate_paths", || mapf::validate_paths(&problem, &paths));
    assert_refusals_told("Plan::new", || Plan::new(&problem, &paths));
    assert_refusals_told("Plan::from_text", || Plan::from_text(&problem, CROSSING_PLAN));
    assert_refusals_told("to_text", || plan.to_text());
    assert_refusals_told("check", || mapf::check(&problem, CROSSING_PLAN, CROSSING_CERTIFICATE));
    assert_refusals_told("check_paths", || mapf::check_paths(&problem, &paths, CROSSING_CERTIFICATE));
    assert_refusals_told("Dispatcher::new", || Dispatcher::new(&problem, &plan).map(|dispatcher| dispatcher.agents()));
    for search in [Search::Cbs, Search::Cbsh] {
        let options = Options::default().search(search);
        assert_refusals_told("solve", || mapf::solve(&problem, &options));
    }
}

#[test]
fn asking_takes_no_memory() {
    let problem = crossing();
    let plan = Plan::from_text(&problem, CROSSING_PLAN).expect("a plan");
    let mut dispatcher = Dispatcher::new(&problem, &plan).expect("a dispatcher");
    let mut goes = 0;
    let ask = || {
        for question in 0..20 {
            let agent = question % 3;
            goes += usize::from(matches!(dispatcher.ask(agent), Ok(mapf::Reply::Go(_))));
            let _ = (dispatcher.cell(agent), dispatcher.holder(agent), dispatcher.is_done());
            goes += dispatcher.in_cycles().count();
        }
    };
    assert_eq!(refusing(Refused::All, 0, ask), ((), 0));
    assert_eq!((goes, dispatcher.is_done()), (4, true));
}

#[test]
fn an_error_is_told_without_memory() {
    use std::fmt::Write;

    let error = mapf::check(&crossing(), CROSSING_PLAN, "").expect_err("no certificate");
    let mut told = String::with_capacity(1_000);
    let tell = || write!(told, "{error}; {}", Error::Memory);
    let (written, _) = refusing(Refused::All, 0, tell);
    assert_eq!(written, Ok(()));
    let subject = "the texts don't show what the plan text says";
    assert_eq!(told, format!("{subject}: refused C2 K2 1 (refused C2 K2 1); there isn't enough memory (F6)"));
}
