//! Plans that are played, and agents that are dispatched, into sinks that fail and over more than a page.
use super::{Given, sink_of};
use crate::crates::mapf_fields::PAGE_ROOM;
use crate::crates::mapf_model::devices::Pace;
use crate::crates::mapf_player::{Dispatch, Reply, dispatch_all, play, read_events};
use crate::made::grid;
use crate::rattle_std::alloc::Global;

const CROSSING_TEXT: &str =
    "tick 0\n.1.\n0..\n...\ntick 1\n...\n01.\n...\ntick 2\n...\n.0.\n.1.\ntick 3\n...\n..0\n.1.\nend 3\n";

/// An agent that rests in the first cell of a grid of this side.
fn resting_on(side: u32) -> Given {
    Given::on(grid(side as usize, side as usize, |_, _| true), &[&[0]])
}

/// What is written where the plan is played.
fn text_of(given: &Given) -> String {
    let mut sink = sink_of(2 * PAGE_ROOM, Pace::AllAtOnce, None);
    assert!(play(&given.problem, &given.plan, &mut sink).is_ok());
    String::from_utf8(sink.bytes().to_vec()).expect("a text")
}

#[test]
fn an_agent_at_rest_is_shown() {
    assert_eq!(text_of(&resting_on(1)), "tick 0\n0\nend 0\n");
}

#[test]
fn walls_and_agents_beside_them_are_shown() {
    let given = Given::on(grid(3, 2, |x, y| ![(1, 0), (0, 1)].contains(&(x, y))), &[&[0], &[5]]);
    assert_eq!(text_of(&given), "tick 0\n0@.\n@.1\nend 0\n");
}

#[test]
fn sixty_three_agents_have_their_marks() {
    let cells: Vec<[u32; 1]> = (0..63).map(|cell| [cell]).collect();
    let paths: Vec<&[u32]> = cells.iter().map(<[u32; 1]>::as_slice).collect();
    let marks = "0123456789abcdefghijklmnopqrstuvwxyzABCDEFGHIJKLMNOPQRSTUVWXYZ*";
    assert_eq!(text_of(&Given::on(grid(63, 1, |_, _| true), &paths)), format!("tick 0\n{marks}\nend 0\n"));
}

/// The side of a grid of which no page of a text holds a frame.
const LARGE_SIDE: u32 = 300;

/// What is shown of an agent that rests on it.
fn large_text() -> String {
    let row = ".".repeat(LARGE_SIDE as usize) + "\n";
    let text = format!("tick 0\n0{}{}end 0\n", &row[1..], row.repeat(LARGE_SIDE as usize - 1));
    assert!(PAGE_ROOM < text.len());
    text
}

#[test]
fn a_grid_that_no_page_holds_is_shown() {
    assert_eq!(text_of(&resting_on(LARGE_SIDE)), large_text());
}

#[test]
fn a_slow_sink_gets_the_same() {
    let given = Given::crossing();
    assert_eq!(text_of(&given), CROSSING_TEXT);
    let mut sink = sink_of(200, Pace::ByteByByte, None);
    assert!(play(&given.problem, &given.plan, &mut sink).is_ok());
    assert_eq!(sink.bytes(), CROSSING_TEXT.as_bytes());
}

// A sink that fails takes a prefix, be it after so many calls or where it is full.
#[test]
fn a_sink_that_fails_has_a_prefix() {
    let given = Given::crossing();
    for taken in 0..=CROSSING_TEXT.len() {
        let slow = sink_of(200, Pace::ByteByByte, Some(taken as u64));
        for mut sink in [slow, sink_of(taken, Pace::AllAtOnce, None)] {
            let is_whole = play(&given.problem, &given.plan, &mut sink).is_ok();
            assert_eq!(is_whole, taken == CROSSING_TEXT.len(), "{taken}");
            assert_eq!(sink.bytes(), &CROSSING_TEXT.as_bytes()[..taken], "{taken}");
        }
    }
}

/// What a sink took that fails after so many calls: nothing before the first one, and at most a page in that one.
/// Whoever wrote into it knows whether it took all of this text, as it did in so many calls.
#[track_caller]
fn assert_paged(text: &str, calls: u64, most_calls: u64, write: impl Fn(&mut super::FuseSink) -> bool) {
    let mut sink = sink_of(2 * PAGE_ROOM, Pace::AllAtOnce, Some(calls));
    let is_whole = write(&mut sink);
    assert_eq!(is_whole, sink.bytes().len() == text.len(), "{calls}");
    assert!(text.as_bytes().starts_with(sink.bytes()), "{calls}");
    assert_eq!(sink.bytes().is_empty(), calls == 0, "{calls}");
    assert!(1 < calls || sink.bytes().len() <= PAGE_ROOM, "{calls}");
    assert!(is_whole || calls < most_calls, "{calls}");
}

#[test]
fn a_sink_that_fails_has_a_prefix_of_more_than_a_page() {
    let (given, text) = (resting_on(LARGE_SIDE), large_text());
    for calls in 0..4 {
        assert_paged(&text, calls, 3, |sink| play(&given.problem, &given.plan, sink).is_ok());
    }
}

#[test]
fn an_agent_at_rest_is_done() {
    let mut dispatch = Dispatch::new(Global, &resting_on(1).plan).expect("memory");
    assert_eq!([dispatch.ask(0), dispatch.ask(0)], [Reply::Done, Reply::Done]);
}

#[test]
fn replies_go_over_more_than_a_page() {
    let given = resting_on(1);
    let line = "done 0\n";
    let asked = PAGE_ROOM / line.len() + 1;
    let events = format!("mapf-events 1\n{}end\n", "0\n".repeat(asked));
    let events = read_events(Global, events.as_bytes(), 1).expect("events");
    for calls in 0..3 {
        assert_paged(&line.repeat(asked), calls, 2, |sink| {
            let mut dispatch = Dispatch::new(Global, &given.plan).expect("memory");
            dispatch_all(&mut dispatch, given.problem.grid(), &events, sink).is_ok()
        });
    }
}
