//! Agents that follow a plan by requests, each answered before more is read.
use super::{Given, sink_of};
use crate::crates::mapf_model::OutOfMemory;
use crate::crates::mapf_model::devices::{FuseSink, FuseSource, Pace};
use crate::crates::mapf_player::{Dispatch, EventFault, FollowFault, follow};
use crate::made::grid;
use crate::memory::assert_refusals_told;
use crate::rattle_std::alloc::Global;
use crate::refusing::{Refused, refusing};

/// More bytes than the replies of a test have.
const ROOM: usize = 1_000;

/// Follows the plan by these requests.
fn followed(given: &Given, requests: &mut FuseSource, sink: &mut FuseSink) -> Result<(), FollowFault> {
    let dispatch = Dispatch::new(Global, &given.plan).expect("memory");
    follow(dispatch, given.problem.grid(), requests, sink)
}

/// These requests get these replies, and the run ends so.
#[track_caller]
fn assert_followed(given: &Given, requests: &str, replies: &str, end: Result<(), FollowFault>) {
    for pace in [Pace::ByteByByte, Pace::AllAtOnce] {
        let mut source = FuseSource::of(requests.as_bytes(), pace, None);
        let mut sink = sink_of(ROOM, pace, None);
        assert_eq!(followed(given, &mut source, &mut sink), end, "{requests:?}");
        assert_eq!(sink.bytes(), replies.as_bytes(), "{requests:?}");
    }
}

#[test]
fn each_request_is_answered() {
    let requests = "mapf-events 1\n0\n1\nno\n\n2\n00\nstatus\n1\n0\n0\n0\nend\n1\n";
    let replies = "hold 0 by 1\ngo 1 1,1\nerror E1 4\nerror E1 5\nerror E3 6\nerror E1 7\ncycle\ngo 1 1,2\ngo 0 1,1\n\
        go 0 2,1\ndone 0\n";
    assert_followed(&Given::crossing(), requests, replies, Ok(()));
}

#[test]
fn agents_in_cycles_are_named() {
    // Four agents turn on a cycle without a free cell, and one waits below for one of them to go.
    let paths: [&[u32]; 5] = [&[4, 4, 4], &[0, 1, 1], &[1, 3, 3], &[3, 2, 2], &[2, 0, 0]];
    let rotation = Given::on(grid(2, 3, |_, _| true), &paths);
    let replies = "cycle 1 2 3 4\ndone 0\nhold 1 by 2\n";
    assert_followed(&rotation, "mapf-events 1\nstatus\n0\n1\n", replies, Ok(()));
}

#[test]
fn requests_that_end_early_are_errors() {
    for (requests, replies, fault) in [
        ("", "", EventFault::E2(1)),
        ("mapf-events 1", "", EventFault::E2(1)),
        ("mapf-events 2\n1\n", "", EventFault::E1(1)),
        ("mapf-events 1\n1\nend", "go 1 1,1\n", EventFault::E2(3)),
        ("mapf-events 1\n1\n0", "go 1 1,1\n", EventFault::E2(3)),
    ] {
        assert_followed(&Given::crossing(), requests, replies, Err(FollowFault::Events(fault)));
    }
}

const REPLIES: &[u8] = b"go 1 1,1\nhold 0 by 1\ngo 1 1,2\ngo 0 1,1\n";

#[test]
fn a_source_that_fails_is_told() {
    let given = Given::crossing();
    for calls in 0..22 {
        let mut source = FuseSource::of(b"mapf-events 1\n1\n0\n1\n0\n", Pace::ByteByByte, Some(calls));
        let mut sink = sink_of(ROOM, Pace::AllAtOnce, None);
        assert_eq!(followed(&given, &mut source, &mut sink), Err(FollowFault::Requests), "{calls}");
        assert!(REPLIES.starts_with(sink.bytes()), "{calls}");
        // The first request has sixteen bytes with the title.
        assert_eq!(sink.bytes().is_empty(), calls < 16, "{calls}");
    }
}

#[test]
fn a_sink_that_fails_is_told() {
    let given = Given::crossing();
    for calls in 0..6 {
        let mut source = FuseSource::of(b"mapf-events 1\n1\n0\n1\n0\nend\n", Pace::AllAtOnce, None);
        let mut sink = sink_of(ROOM, Pace::AllAtOnce, Some(calls));
        let end = if calls < 4 { Err(FollowFault::Replies) } else { Ok(()) };
        assert_eq!(followed(&given, &mut source, &mut sink), end, "{calls}");
        assert!(REPLIES.starts_with(sink.bytes()), "{calls}");
        assert_eq!(sink.bytes().len() < REPLIES.len(), calls < 4, "{calls}");
    }
}

#[test]
fn want_of_memory_is_told() {
    let given = Given::crossing();
    assert_refusals_told(|| Dispatch::new(Global, &given.plan).map(|_| ()), |OutOfMemory| true);
}

#[test]
fn following_takes_no_memory() {
    let given = Given::crossing();
    let dispatch = Dispatch::new(Global, &given.plan).expect("memory");
    let mut source = FuseSource::of(b"mapf-events 1\n1\nstatus\n0\n1\n0\nend\n", Pace::AllAtOnce, None);
    let mut sink = sink_of(ROOM, Pace::AllAtOnce, None);
    let follow = || follow(dispatch, given.problem.grid(), &mut source, &mut sink);
    assert_eq!(refusing(Refused::All, 0, follow), (Ok(()), 0));
    assert_eq!(sink.bytes(), b"go 1 1,1\ncycle\nhold 0 by 1\ngo 1 1,2\ngo 0 1,1\n");
}
