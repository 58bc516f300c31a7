//! Event texts.
use crate::crates::mapf_player::{EventFault, read_events};
use crate::memory::assert_refusals_told;
use crate::rattle_std::alloc::Global;

const EVENTS: &str = "mapf-events 1\n0\n1\nend\n";

/// The agents that ask by an event text of a plan of two agents.
fn events_of(text: &str) -> Result<Vec<u32>, EventFault> {
    read_events(Global, text.as_bytes(), 2).map(|events| events.to_vec())
}

#[test]
fn events_are_read() {
    assert_eq!(events_of(EVENTS), Ok(vec![0, 1]));
}

#[test]
fn errors_of_events_have_their_line() {
    for (text, fault) in [
        ("mapf-events 1\n2\nend\n", EventFault::E3(2)),
        ("mapf-events 1\n01\nend\n", EventFault::E1(2)),
        ("mapf-events 1\n0\n", EventFault::E2(3)),
        ("mapf-events 1\nend\nx", EventFault::E4(3)),
        ("mapf-events 1\n18446744073709551616\nend\n", EventFault::E3(2)),
        ("mapf-events 2\nend\n", EventFault::E1(1)),
        ("", EventFault::E2(1)),
        ("mapf-events 1\n0", EventFault::E2(2)),
    ] {
        assert_eq!(events_of(text), Err(fault), "{text:?}");
    }
}

#[test]
fn want_of_memory_is_told() {
    let read = || read_events(Global, EVENTS.as_bytes(), 2).map(|_| ());
    assert_refusals_told(read, |fault| *fault == EventFault::Memory);
}
