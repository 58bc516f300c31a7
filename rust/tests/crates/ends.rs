//! How the runs of the crate `mapf_app` end whose devices are slow, full or broken, and what the program prints of each
//! end.
use crate::crates::mapf_model::devices::{FuseSink, Pace};
use crate::rattle_std::alloc::Global;

#[path = "ends/reading.rs"]
mod reading;
#[path = "ends/telling.rs"]
mod telling;
#[path = "ends/writing.rs"]
mod writing;

/// What `play` shows of the plan of the crossing.
const CROSSING_SHOWN: &str = "\
tick 0\n.1.\n0..\n...\ntick 1\n...\n01.\n...\ntick 2\n...\n.0.\n.1.\ntick 3\n...\n..0\n.1.\nend 3\n";

/// More bytes than any text here has.
const ROOM: usize = 1000;

const PACES: [Pace; 2] = [Pace::AllAtOnce, Pace::ByteByByte];

/// A sink of this pace that fails after so many calls, or never.
fn sink_at(pace: Pace, calls: Option<usize>) -> FuseSink {
    FuseSink::with_room(Global, ROOM, pace, calls.map(|calls| calls as u64)).expect("memory")
}
