//! Runs whose inputs come slowly, can't be read, or never end.
use super::{CROSSING_SHOWN, PACES, sink_at};
use crate::crates::mapf_app::{Fault, Input, Kind, Verdict, run_check, run_dispatch, run_play, run_solve};
use crate::crates::mapf_model::devices::{EndlessSource, FuseSource, Pace};
use crate::crates::mapf_model::{BytesSource, Cause, Source};
use crate::problems::{
    CROSSING, CROSSING_CERT, CROSSING_EVENTS, CROSSING_MAP, CROSSING_PLAN, CROSSING_SCEN, CROSSING_STOPPED_CERT,
    CROSSING_STOPPED_PLAN, CROSSING_TOLD,
};
use crate::rattle_std::alloc::Global;
use crate::running::{dispatch_into, sink, text_in};

/// The inputs of the crossing.
struct Inputs {
    map: FuseSource<'static>,
    scen: FuseSource<'static>,
    plan: FuseSource<'static>,
    cert: FuseSource<'static>,
    events: FuseSource<'static>,
}

impl Inputs {
    /// The inputs at this pace. One of them may fail after so many calls.
    fn at(pace: Pace, failing: Option<(Input, u64)>) -> Inputs {
        let source = |input| {
            let calls = failing.filter(|&(name, _)| name == input).map(|(_, calls)| calls);
            FuseSource::of(text_of(input).as_bytes(), pace, calls)
        };
        Inputs {
            map: source(Input::Map),
            scen: source(Input::Scen),
            plan: source(Input::Plan),
            cert: source(Input::Cert),
            events: source(Input::Events),
        }
    }
}

/// The text of the crossing that is this input.
fn text_of(input: Input) -> &'static str {
    match input {
        Input::Map => CROSSING_MAP,
        Input::Scen => CROSSING_SCEN,
        Input::Plan => CROSSING_PLAN,
        Input::Cert => CROSSING_CERT,
        Input::Events => CROSSING_EVENTS,
    }
}

/// A run on the crossing.
#[derive(Clone, Copy, Debug, PartialEq, Eq)]
enum Run {
    /// A search within so many splits.
    Solve(u32),
    Check,
    Play,
    Dispatch,
}

const RUNS: [Run; 5] = [Run::Solve(10), Run::Solve(0), Run::Check, Run::Play, Run::Dispatch];

/// The answer of a run.
#[derive(Debug, PartialEq, Eq)]
enum Answer {
    Solved(Kind),
    Checked(Verdict),
    Written,
}

/// The answer of a run, and what it wrote: of a search the one text behind the other.
type End = (Result<Answer, Fault>, String);

impl Run {
    /// Whether the run reads this input.
    fn reads(self, input: Input) -> bool {
        match input {
            Input::Map | Input::Scen => true,
            Input::Plan => !matches!(self, Run::Solve(_)),
            Input::Cert => self == Run::Check,
            Input::Events => self == Run::Dispatch,
        }
    }

    /// How the run ends on these inputs. It writes at this pace.
    fn end(self, inputs: Inputs, pace: Pace) -> End {
        let Inputs { mut map, mut scen, mut plan, mut cert, mut events } = inputs;
        let (map, scen, plan) = (&mut map, &mut scen, &mut plan);
        let (mut first, mut second) = (sink_at(pace, None), sink_at(pace, None));
        let answer = match self {
            Run::Solve(limit) => run_solve(Global, map, scen, 2, limit, &mut first, &mut second).map(Answer::Solved),
            Run::Check => run_check(Global, map, scen, 2, plan, &mut cert).map(Answer::Checked),
            Run::Play => run_play(Global, map, scen, 2, plan, &mut first).map(|()| Answer::Written),
            Run::Dispatch => {
                run_dispatch(Global, map, scen, 2, plan, &mut events, &mut first).map(|()| Answer::Written)
            }
        };
        let written = [first.bytes(), second.bytes()].concat();
        (answer, String::from_utf8(written).expect("a text"))
    }

    /// How the run ends where no device fails.
    fn good_end(self) -> End {
        let stopped = Kind::Limit { cause: Cause::Splits(0), bound: 4 };
        let (answer, texts) = match self {
            Run::Solve(0) => (Answer::Solved(stopped), [CROSSING_STOPPED_PLAN, CROSSING_STOPPED_CERT]),
            Run::Solve(_) => (Answer::Solved(Kind::Found(5)), [CROSSING_PLAN, CROSSING_CERT]),
            Run::Check => (Answer::Checked(Verdict::Optimal(5)), ["", ""]),
            Run::Play => (Answer::Written, [CROSSING_SHOWN, ""]),
            Run::Dispatch => (Answer::Written, [CROSSING_TOLD, ""]),
        };
        (Ok(answer), texts.concat())
    }
}

#[test]
fn each_run_ends_the_same_at_any_pace() {
    let paces = PACES.into_iter().flat_map(|read| PACES.map(|write| (read, write)));
    for ((read, write), run) in paces.flat_map(|paces| RUNS.map(|run| (paces, run))) {
        assert_eq!(run.end(Inputs::at(read, None), write), run.good_end(), "{run:?} at {read:?} and {write:?}");
    }
}

/// Each run that reads this input ends with its failure where its source fails before the call that finds its end, and
/// reads no source past its end.
#[track_caller]
fn assert_named(input: Input, pace: Pace, most_calls: u64) {
    let runs = RUNS.into_iter().filter(|run| run.reads(input));
    for (run, calls) in runs.flat_map(|run| (0..=most_calls).map(move |calls| (run, calls))) {
        let end = run.end(Inputs::at(pace, Some((input, calls))), pace);
        let wanted = if calls < most_calls { (Err(Fault::F4(input)), String::new()) } else { run.good_end() };
        assert_eq!(end, wanted, "{run:?} whose {input:?} fails after {calls} calls at {pace:?}");
    }
}

#[test]
fn each_run_names_the_input_that_failed() {
    for input in [Input::Map, Input::Scen, Input::Plan, Input::Cert, Input::Events] {
        assert_named(input, Pace::ByteByByte, text_of(input).len() as u64 + 1);
        assert_named(input, Pace::AllAtOnce, 2);
    }
}

/// A search ends with a failure of this input, and nothing is written.
#[track_caller]
fn assert_unsolved<M: Source, S: Source>(map: &mut M, scen: &mut S, input: Input) {
    let (mut plan, mut cert) = (sink(), sink());
    assert_eq!(run_solve(Global, map, scen, 2, 10, &mut plan, &mut cert), Err(Fault::F4(input)));
    assert_eq!((text_in(&plan), text_in(&cert)), (String::new(), String::new()));
}

#[test]
fn a_search_gives_up_on_a_map_or_scenario_without_end() {
    let mut scen = BytesSource::of(CROSSING_SCEN.as_bytes());
    assert_unsolved(&mut EndlessSource::of(b' '), &mut scen, Input::Map);
    let mut map = BytesSource::of(CROSSING_MAP.as_bytes());
    assert_unsolved(&mut map, &mut EndlessSource::of(b'\n'), Input::Scen);
}

#[test]
fn a_check_gives_up_on_a_plan_text_without_end() {
    let Inputs { mut map, mut scen, mut cert, .. } = Inputs::at(Pace::AllAtOnce, None);
    let verdict = run_check(Global, &mut map, &mut scen, 2, &mut EndlessSource::of(b'0'), &mut cert);
    assert_eq!(verdict, Err(Fault::F4(Input::Plan)));
}

#[test]
fn agents_are_told_nothing_where_events_have_no_end() {
    let mut replies = sink();
    let answer = dispatch_into(&CROSSING, CROSSING_PLAN, &mut EndlessSource::of(b'0'), &mut replies);
    assert_eq!((answer, text_in(&replies)), (Err(Fault::F4(Input::Events)), String::new()));
}
