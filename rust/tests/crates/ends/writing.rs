//! Runs whose outputs are full or can't be written: they name the output, and hold the front of its text.
use super::{CROSSING_SHOWN, sink_at};
use crate::crates::mapf_app::{Fault, Kind, Output, Search, run_demo};
use crate::crates::mapf_model::BytesSource;
use crate::crates::mapf_model::devices::{FuseSink, Pace};
use crate::problems::{
    AT_REST, AT_REST_PLAN, CROSSING, CROSSING_EVENTS, CROSSING_MAP, CROSSING_PLAN, CROSSING_TOLD, DEARER, Given, NICHE,
    ROTATION, ROTATION_PLAN, SHARED_GOAL, SHARED_START,
};
use crate::rattle_std::alloc::Global;
use crate::running::{dispatch_into, play_into, solve_by_into, solve_into};

/// What the demo prints: the plan text and the certificate of its problem, and the verdict.
const DEMO: &str = "\
mapf-plan 2\nagents 4\ncost 4\npath 0 1 0,0 1,0\npath 1 1 1,0 1,1\npath 2 1 1,1 0,1\npath 3 1 0,1 0,0\nend\n\
mapf-cert 2\nagents 4\nclaim cost 4\nleaf 0\nend\noptimal 4\n";

/// Two sinks that take so many bytes: one is full then, the other takes a byte in each call, and the next call fails.
fn failing_sinks(bytes: usize) -> [FuseSink; 2] {
    let full = FuseSink::with_room(Global, bytes, Pace::AllAtOnce, None).expect("memory");
    [full, sink_at(Pace::ByteByByte, Some(bytes))]
}

/// The run writes this text. Into a sink that fails it writes the front of it for which there is room.
#[track_caller]
fn assert_front_written(text: &str, run: impl Fn(&mut FuseSink) -> Result<(), Fault>) {
    let sinks = (0..=text.len()).flat_map(|bytes| failing_sinks(bytes).map(|sink| (bytes, sink)));
    for (bytes, mut sink) in sinks {
        let answer = if bytes < text.len() { Err(Fault::F5(Output::Out)) } else { Ok(()) };
        assert_eq!((run(&mut sink), sink.bytes()), (answer, &text.as_bytes()[..bytes]), "{bytes} bytes of {text:?}");
    }
}

/// Into a sink that takes all bytes of a call, and fails after so many calls, the run writes a front of this text.
#[track_caller]
fn assert_front_written_at_once(text: &str, run: impl Fn(&mut FuseSink) -> Result<(), Fault>) {
    for calls in 0..=text.len() {
        let mut sink = sink_at(Pace::AllAtOnce, Some(calls));
        let answer = run(&mut sink);
        let is_whole = sink.bytes() == text.as_bytes();
        assert_eq!(answer, if is_whole { Ok(()) } else { Err(Fault::F5(Output::Out)) }, "{calls} calls, {text:?}");
        assert!(text.as_bytes().starts_with(sink.bytes()), "{calls} calls, {text:?}");
        assert!(is_whole || calls < text.len(), "{calls} calls, {text:?}");
    }
}

#[test]
fn the_demo_is_written_as_far_as_its_sink_takes_it() {
    let run = |sink: &mut FuseSink| run_demo(Global, sink);
    assert_front_written(DEMO, run);
    assert_front_written_at_once(DEMO, run);
}

/// Problems with plan texts, and what `play` shows of them.
const SHOWN: [(Given, &str, &str); 4] = [
    (AT_REST, AT_REST_PLAN, "tick 0\n0\nend 0\n"),
    (CROSSING, CROSSING_PLAN, CROSSING_SHOWN),
    // The first agent waits for two ticks, and the second stays where it arrived.
    (
        CROSSING,
        DEARER,
        "tick 0\n.1.\n0..\n...\ntick 1\n...\n01.\n...\ntick 2\n...\n0..\n.1.\ntick 3\n...\n.0.\n.1.\n\
        tick 4\n...\n..0\n.1.\nend 4\n",
    ),
    (ROTATION, ROTATION_PLAN, "tick 0\n01\n32\ntick 1\n30\n21\nend 1\n"),
];

#[test]
fn a_plan_is_shown_as_far_as_its_sink_takes_it() {
    for (given, plan, shown) in SHOWN {
        let run = |sink: &mut FuseSink| play_into(&given, plan, sink);
        assert_front_written(shown, run);
        assert_front_written_at_once(shown, run);
    }
}

// Who waits how long in the plan makes no difference.
#[test]
fn replies_are_written_as_far_as_their_sink_takes_them() {
    for plan in [CROSSING_PLAN, DEARER] {
        let run = |sink: &mut FuseSink| {
            dispatch_into(&CROSSING, plan, &mut BytesSource::of(CROSSING_EVENTS.as_bytes()), sink)
        };
        assert_front_written(CROSSING_TOLD, run);
        assert_front_written_at_once(CROSSING_TOLD, run);
    }
}

/// Three agents on an open square. The first and the third are opposed, and the second crosses their way.
const OPPOSED: Given = Given {
    map: CROSSING_MAP,
    scen: "version 1\n0\ta.map\t3\t3\t0\t1\t2\t1\t2\n0\ta.map\t3\t3\t1\t0\t1\t2\t2\n0\ta.map\t3\t3\t2\t1\t0\t1\t2\n",
    k: 3,
};

/// Problems, and how many splits are allowed. Within these, plain search finds two plans, shows two bounds, at the root
/// and after a split, and shows of two problems that no plan is valid.
const PROBLEMS: [(Given, u32); 6] =
    [(CROSSING, 10), (NICHE, 5), (CROSSING, 0), (OPPOSED, 1), (SHARED_START, 1), (SHARED_GOAL, 0)];

/// A search on a problem. Without a name it is the run of plain search alone.
#[derive(Clone, Copy, Debug)]
struct Searching {
    given: Given,
    limit: u32,
    search: Option<Search>,
}

impl Searching {
    fn run(&self, plan: &mut FuseSink, cert: &mut FuseSink) -> Result<Kind, Fault> {
        match self.search {
            None => solve_into(&self.given, self.limit, plan, cert),
            Some(search) => solve_by_into(&self.given, search, self.limit, plan, cert).map(|answered| answered.kind),
        }
    }

    /// Into a sink of the plan text that fails its front is written, and nothing into the sink of the certificate.
    #[track_caller]
    fn assert_plan_named(&self, text: &[u8]) {
        let sinks = (0..text.len()).flat_map(|bytes| failing_sinks(bytes).map(|sink| (bytes, sink)));
        for (bytes, mut plan) in sinks {
            let mut cert = sink_at(Pace::AllAtOnce, None);
            assert_eq!(self.run(&mut plan, &mut cert), Err(Fault::F5(Output::Plan)), "{self:?}, {bytes} bytes");
            assert_eq!((plan.bytes(), cert.bytes()), (&text[..bytes], &b""[..]), "{self:?}, {bytes} bytes");
        }
    }

    /// The same of the certificate, behind the whole plan text.
    #[track_caller]
    fn assert_cert_named(&self, plan_text: &[u8], text: &[u8]) {
        let sinks = (0..text.len()).flat_map(|bytes| failing_sinks(bytes).map(|sink| (bytes, sink)));
        for (bytes, mut cert) in sinks {
            let mut plan = sink_at(Pace::AllAtOnce, None);
            assert_eq!(self.run(&mut plan, &mut cert), Err(Fault::F5(Output::Cert)), "{self:?}, {bytes} bytes");
            assert_eq!((plan.bytes(), cert.bytes()), (plan_text, &text[..bytes]), "{self:?}, {bytes} bytes");
        }
    }
}

#[test]
fn each_search_names_the_text_that_was_not_written() {
    let searches = [None, Some(Search::Cbs), Some(Search::Cbsh)];
    for ((given, limit), search) in PROBLEMS.into_iter().flat_map(|problem| searches.map(|search| (problem, search))) {
        let searching = Searching { given, limit, search };
        let (mut plan, mut cert) = (sink_at(Pace::AllAtOnce, None), sink_at(Pace::AllAtOnce, None));
        searching.run(&mut plan, &mut cert).expect("an answer");
        searching.assert_plan_named(plan.bytes());
        searching.assert_cert_named(plan.bytes(), cert.bytes());
    }
}
