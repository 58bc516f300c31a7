//! The rules that a certificate has for the groups of a leaf.
use crate::crates::mapf_packing::{Excess, PackedGroup, Packing};
use std::collections::BTreeMap;

/// The packing of these excesses keeps the rules.
#[track_caller]
pub fn assert_kept(excesses: &[Excess], packing: &Packing) {
    let mut groups = BTreeMap::new();
    for (number, group) in packing.groups.iter().enumerate() {
        assert!((1..=1000).contains(&group.divisor), "{group:?}");
        assert!(!group.uses.is_empty(), "{packing:?}");
        assert!(group.uses.is_sorted_by(|one, next| one.place < next.place), "{group:?}");
        assert!(group.uses.iter().all(|used| (1..=1000).contains(&used.weight)), "{group:?}");
        for (agent, load) in loads(excesses, group) {
            assert!(load <= group.divisor, "agent {agent}: {group:?}");
            assert_eq!(groups.insert(agent, number), None, "agent {agent} is in two groups: {packing:?}");
        }
    }
    let sum: u64 = packing.groups.iter().map(|group| worth(excesses, group)).sum();
    assert_eq!(packing.sum, sum, "{packing:?}");
}

/// By agent, what the weights of its sets add up to in a group.
fn loads(excesses: &[Excess], group: &PackedGroup) -> BTreeMap<u32, u32> {
    let mut loads = BTreeMap::new();
    let weights = group.uses.iter().flat_map(|used| {
        let agents = &excesses[used.place as usize].agents;
        agents.iter().map(|&agent| (agent, used.weight))
    });
    for (agent, weight) in weights {
        *loads.entry(agent).or_default() += weight;
    }
    loads
}

/// What a group counts, in ticks.
fn worth(excesses: &[Excess], group: &PackedGroup) -> u64 {
    let counted = |place: u32, weight: u32| u64::from(weight) * u64::from(excesses[place as usize].excess);
    let total: u64 = group.uses.iter().map(|used| counted(used.place, used.weight)).sum();
    total.div_ceil(group.divisor.into())
}
