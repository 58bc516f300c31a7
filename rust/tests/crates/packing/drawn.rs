//! Excesses that are drawn: a few, beside brute force, and many and great ones.
use super::brute_force::{best_group, least_cover};
use super::excess;
use super::rules::assert_kept;
use crate::crates::mapf_model::OutOfMemory;
use crate::crates::mapf_packing::{Excess, Packer, Packing};
use crate::made::Drawn;
use crate::memory::assert_refusals_told;
use crate::rattle_std::alloc::Global;
use std::collections::BTreeSet;

/// What is drawn.
#[derive(Clone, Copy, Debug)]
struct Shape {
    agents: u32,
    /// How many sets there are.
    sets: u32,
    /// A set has from two to so many agents.
    most_agents: u32,
    /// An excess is from 1 to this.
    most_excess: u32,
}

impl Shape {
    /// Draws excesses.
    fn draw(self, seed: u64) -> Vec<Excess> {
        let mut numbers = Drawn::of(seed);
        let sets = (0..self.sets).map(|_| {
            let count = 2 + numbers.below(self.most_agents - 1);
            let agents = distinct(count, self.agents, &mut numbers);
            excess(agents, 1 + numbers.below(self.most_excess))
        });
        sets.collect()
    }

    /// Returns a packer that has not served yet.
    fn packer(self) -> Packer {
        Packer::of(Global, self.agents).expect("memory")
    }
}

/// Draws so many numbers below a bound.
fn distinct(count: u32, bound: u32, numbers: &mut Drawn) -> BTreeSet<u32> {
    let mut distinct = BTreeSet::new();
    while distinct.len() < count as usize {
        distinct.insert(numbers.below(bound));
    }
    distinct
}

/// Packs excesses by a packer that may have served before. The packing keeps the rules, and a new packer makes the
/// same.
#[track_caller]
fn pack(packer: &mut Packer, shape: Shape, excesses: &[Excess]) -> Packing {
    let packing = packer.pack(Global, excesses).expect("memory");
    assert_kept(excesses, &packing);
    let again = shape.packer().pack(Global, excesses).expect("memory");
    assert_eq!(format!("{packing:?}"), format!("{again:?}"), "{shape:?}, {excesses:?}");
    packing
}

/// The packings of drawn excesses are at least as great as one group by each of these divisors, and no greater than a
/// least cover.
#[track_caller]
fn assert_great(shape: Shape, divisors: &[u32]) {
    let mut packer = shape.packer();
    for seed in 0..200 {
        let excesses = shape.draw(seed);
        let packing = pack(&mut packer, shape, &excesses);
        let most = least_cover(&excesses, shape.agents, shape.most_excess);
        assert!(packing.sum <= most, "seed {seed}: {} above {most}", packing.sum);
        for &divisor in divisors {
            let least = best_group(&excesses, shape.agents, divisor);
            assert!(packing.sum >= least, "seed {seed}, divisor {divisor}: {} below {least}", packing.sum);
        }
    }
}

#[test]
fn a_few_pairs_are_packed_as_well_as_by_brute_force() {
    assert_great(Shape { agents: 6, sets: 7, most_agents: 2, most_excess: 2 }, &[1, 2]);
}

#[test]
fn a_few_sets_are_packed_as_well_as_by_brute_force() {
    assert_great(Shape { agents: 6, sets: 5, most_agents: 4, most_excess: 2 }, &[1, 2, 3]);
}

// Tableaus of the last two shapes take too long, or have numbers that don't fit.
#[test]
fn many_sets_keep_the_rules_and_are_packed_the_same_again() {
    for (shape, seeds) in [
        (Shape { agents: 96, sets: 200, most_agents: 2, most_excess: 2 }, 40),
        (Shape { agents: 200, sets: 40, most_agents: 40, most_excess: 9 }, 4),
        (Shape { agents: 40, sets: 60, most_agents: 12, most_excess: 4_000_000_000 }, 10),
        (Shape { agents: 100, sets: 100, most_agents: 30, most_excess: 4_000_000_000 }, 10),
    ] {
        let mut packer = shape.packer();
        for seed in 0..seeds {
            let excesses = shape.draw(seed);
            let packing = pack(&mut packer, shape, &excesses);
            assert!(packing.sum > 0, "{shape:?}, seed {seed}");
        }
    }
}

#[test]
fn a_packer_packs_the_same_again_or_tells_that_memory_is_refused() {
    let shape = Shape { agents: 8, sets: 12, most_agents: 4, most_excess: 3 };
    for seed in 0..4 {
        let excesses = shape.draw(seed);
        let packed_twice = || -> Result<_, OutOfMemory> {
            let mut packer = Packer::of(Global, shape.agents)?;
            let first = packer.pack(Global, &excesses)?;
            let second = packer.pack(Global, &excesses)?;
            Ok([first, second].map(|packing| (packing.sum, packing.groups.len())))
        };
        let [first, second] = packed_twice().expect("memory");
        assert_eq!(first, second, "seed {seed}");
        assert_refusals_told(packed_twice, |error| *error == OutOfMemory);
    }
}
