//! Packings of the excesses of sets of agents: they keep the rules of a certificate, and in small cases they are as
//! great as those that brute force finds.
#[path = "packing/brute_force.rs"]
mod brute_force;
#[path = "packing/drawn.rs"]
mod drawn;
#[path = "packing/rules.rs"]
mod rules;
#[path = "packing/worked.rs"]
mod worked;

use crate::crates::mapf_packing::Excess;
use crate::made::list;

/// An excess of these agents, which rise, of so many ticks.
fn excess(agents: impl IntoIterator<Item = u32>, ticks: u32) -> Excess {
    Excess { agents: list(agents), excess: ticks }
}
