//! Which error is named where agents can't follow a plan, and where their events are cut short.
use crate::crates::mapf_app::{EventFault, Fault, Input, MapFault, PlanFault, PlanTextFault, PlayFault, ScenFault};
use crate::crates::mapf_model::Source;
use crate::crates::mapf_model::devices::{FuseSource, Pace};
use crate::problems::{CROSSING, CROSSING_EVENTS, CROSSING_PLAN, Given, MEETING, line_cut};
use crate::running::{dispatch, dispatch_into, play, sink};

/// Problems with plan texts that can't be followed, and the error that is named though all that is judged later is bad
/// too.
const FAULTS: [(Given, &str, Fault); 7] = [
    (
        Given { map: "type tile\n", scen: "version 2\n", k: 1 },
        "mapf-plan 1\nagents 3\nlimit 0\n",
        Fault::F1(MapFault::M1),
    ),
    (Given { scen: "version 2\n", ..CROSSING }, "mapf-plan 1\nagents 3\nlimit 0\n", Fault::F2(ScenFault::S1)),
    (CROSSING, "mapf-plan 1\nagents 3\nlimit 0\n", Fault::F3(PlayFault::Text(PlanTextFault::P2(4)))),
    (CROSSING, "mapf-plan 1\nagents 3\nlimit 0\nend\n", Fault::F3(PlayFault::NoPlan)),
    (CROSSING, "mapf-plan 2\nagents 3\nimpossible\nend\n", Fault::F3(PlayFault::NoPlan)),
    (Given { k: 1, ..CROSSING }, MEETING, Fault::F3(PlayFault::OtherCount)),
    (CROSSING, MEETING, Fault::F3(PlayFault::Invalid(PlanFault::V4 { i: 0, j: 1, tick: 1 }))),
];

/// Events of which the first is of no agent of the crossing, and that have no end.
const BAD_EVENTS: &str = "mapf-events 1\n2\n";

#[test]
fn the_first_error_is_named() {
    for (given, plan, fault) in FAULTS {
        let unfollowed = (Err(fault), String::new());
        assert_eq!(play(&given, plan), unfollowed, "{given:?}, {plan:?}");
        assert_eq!(dispatch(&given, plan, BAD_EVENTS), unfollowed, "{given:?}, {plan:?}");
    }
    let fault = Fault::F3(PlayFault::Events(EventFault::E3(2)));
    assert_eq!(dispatch(&CROSSING, CROSSING_PLAN, BAD_EVENTS), (Err(fault), String::new()));
}

/// What is answered where the source of the events fails at once, and whether it was asked for bytes.
fn dispatched_without_events(given: &Given, plan: &str) -> (Fault, bool) {
    let mut events = FuseSource::of(BAD_EVENTS.as_bytes(), Pace::AllAtOnce, Some(0));
    let fault = dispatch_into(given, plan, &mut events, &mut sink()).expect_err("no events");
    (fault, events.failed())
}

#[test]
fn events_are_read_only_beside_a_plan_that_can_be_followed() {
    for (given, plan, fault) in FAULTS {
        assert_eq!(dispatched_without_events(&given, plan), (fault, false), "{given:?}, {plan:?}");
    }
    assert_eq!(dispatched_without_events(&CROSSING, CROSSING_PLAN), (Fault::F4(Input::Events), true));
}

#[test]
fn events_that_are_cut_short_are_refused() {
    for length in 0..CROSSING_EVENTS.len() {
        let events = &CROSSING_EVENTS[..length];
        let fault = Fault::F3(PlayFault::Events(EventFault::E2(line_cut(events.as_bytes()))));
        assert_eq!(dispatch(&CROSSING, CROSSING_PLAN, events), (Err(fault), String::new()), "{events:?}");
    }
}
