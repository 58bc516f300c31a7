//! Runs on texts in memory, with what they answer and write.
use crate::crates::mapf_app::{
    Answered, Asked, Fault, Kind, Search, Verdict, run_check, run_dispatch, run_play, run_solve, run_solve_by,
};
use crate::crates::mapf_model::{BytesSink, BytesSource, Sink, Source, Unwatched};
use crate::problems::Given;
use crate::rattle_std::alloc::Global;

/// How many improvements a run by the second search tries.
const IMPROVEMENTS: u32 = 100;

/// What a run answered whose answer in the good case is of this type, and the two texts that it wrote.
#[derive(Clone, Debug, PartialEq, Eq)]
pub struct Solved<A> {
    pub answer: Result<A, Fault>,
    pub plan: String,
    pub cert: String,
}

/// Solves a problem within so many splits.
pub fn solve(given: &Given, limit: u32) -> Solved<Kind> {
    let (mut plan, mut cert) = (sink(), sink());
    let answer = solve_into(given, limit, &mut plan, &mut cert);
    Solved { answer, plan: text_in(&plan), cert: text_in(&cert) }
}

/// Solves a problem within so many splits, and writes the texts into these sinks.
pub fn solve_into<P: Sink, C: Sink>(given: &Given, limit: u32, plan: &mut P, cert: &mut C) -> Result<Kind, Fault> {
    let (mut map, mut scen) = inputs(given);
    run_solve(Global, &mut map, &mut scen, given.k, limit, plan, cert)
}

/// Solves a problem within so many splits by a search of the caller's choice.
pub fn solve_by(given: &Given, search: Search, limit: u32) -> Solved<Answered> {
    let (mut plan, mut cert) = (sink(), sink());
    let answer = solve_by_into(given, search, limit, &mut plan, &mut cert);
    Solved { answer, plan: text_in(&plan), cert: text_in(&cert) }
}

/// The same, with the texts written into these sinks.
pub fn solve_by_into<P: Sink, C: Sink>(
    given: &Given,
    search: Search,
    limit: u32,
    plan: &mut P,
    cert: &mut C,
) -> Result<Answered, Fault> {
    let (mut map, mut scen) = inputs(given);
    let asked = Asked { search, k: given.k, limit, improvements: IMPROVEMENTS, watcher: &mut Unwatched };
    run_solve_by(Global, &mut map, &mut scen, asked, plan, cert)
}

/// Checks a plan text and a certificate.
pub fn check(given: &Given, plan: impl AsRef<[u8]>, cert: impl AsRef<[u8]>) -> Result<Verdict, Fault> {
    check_from(given, plan, &mut BytesSource::of(cert.as_ref()))
}

/// Checks a plan text and a certificate that comes from this source.
pub fn check_from<S: Source>(given: &Given, plan: impl AsRef<[u8]>, cert: &mut S) -> Result<Verdict, Fault> {
    let (mut map, mut scen) = inputs(given);
    run_check(Global, &mut map, &mut scen, given.k, &mut BytesSource::of(plan.as_ref()), cert)
}

/// Plays a plan text, and returns also what was written.
pub fn play(given: &Given, plan: impl AsRef<[u8]>) -> (Result<(), Fault>, String) {
    let mut sink = sink();
    let answer = play_into(given, plan, &mut sink);
    (answer, text_in(&sink))
}

/// Plays a plan text into this sink.
pub fn play_into<K: Sink>(given: &Given, plan: impl AsRef<[u8]>, sink: &mut K) -> Result<(), Fault> {
    let (mut map, mut scen) = inputs(given);
    run_play(Global, &mut map, &mut scen, given.k, &mut BytesSource::of(plan.as_ref()), sink)
}

/// Lets agents follow a plan text in the order of an event text, and returns also the replies.
pub fn dispatch(given: &Given, plan: impl AsRef<[u8]>, events: impl AsRef<[u8]>) -> (Result<(), Fault>, String) {
    let mut sink = sink();
    let answer = dispatch_into(given, plan, &mut BytesSource::of(events.as_ref()), &mut sink);
    (answer, text_in(&sink))
}

/// The same with events that come from this source, and replies written into this sink.
pub fn dispatch_into<E: Source, K: Sink>(
    given: &Given,
    plan: impl AsRef<[u8]>,
    events: &mut E,
    sink: &mut K,
) -> Result<(), Fault> {
    let (mut map, mut scen) = inputs(given);
    run_dispatch(Global, &mut map, &mut scen, given.k, &mut BytesSource::of(plan.as_ref()), events, sink)
}

/// The map and the scenario of a problem, to be read.
pub fn inputs(given: &Given) -> (BytesSource<'static>, BytesSource<'static>) {
    (BytesSource::of(given.map.as_bytes()), BytesSource::of(given.scen.as_bytes()))
}

/// A sink with room for any text of a worked problem.
pub fn sink() -> BytesSink {
    sink_of(4096)
}

/// A sink with room for so many bytes.
pub fn sink_of(room: usize) -> BytesSink {
    BytesSink::with_room(Global, room).expect("memory")
}

/// The text that was written into a sink.
pub fn text_in(sink: &BytesSink) -> String {
    String::from_utf8(sink.bytes().to_vec()).expect("a text")
}
