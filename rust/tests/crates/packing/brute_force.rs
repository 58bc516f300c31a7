//! The greatest groups of small divisors, and the least covers, of a few sets: all of them are tried.
use crate::crates::mapf_packing::Excess;

/// The greatest worth of one group of all sets with this divisor.
pub fn best_group(excesses: &[Excess], agents: u32, divisor: u32) -> u64 {
    let load = |weights: &[u32], agent: u32| -> u32 {
        let sets = excesses.iter().zip(weights).filter(|(excess, _)| excess.agents.contains(&agent));
        sets.map(|(_, weight)| weight).sum()
    };
    let total =
        |weights: &[u32]| -> u32 { excesses.iter().zip(weights).map(|(excess, weight)| excess.excess * weight).sum() };
    let groups =
        lists(excesses.len(), divisor + 1).filter(|weights| (0..agents).all(|agent| load(weights, agent) <= divisor));
    let greatest = groups.map(|weights| total(&weights)).max().expect("the group of no weights");
    greatest.div_ceil(divisor).into()
}

/// The least sum of whole numbers, one for each agent and none above `most`, such that those of each set's agents add
/// up to its excess or more. No packing is greater.
pub fn least_cover(excesses: &[Excess], agents: u32, most: u32) -> u64 {
    let covers = |numbers: &[u32], excess: &Excess| {
        excess.agents.iter().map(|&agent| numbers[agent as usize]).sum::<u32>() >= excess.excess
    };
    let all = lists(agents as usize, most + 1).filter(|numbers| excesses.iter().all(|excess| covers(numbers, excess)));
    all.map(|numbers| numbers.iter().sum::<u32>()).min().expect("a cover").into()
}

/// All lists of so many numbers below a bound.
fn lists(length: usize, bound: u32) -> impl Iterator<Item = Vec<u32>> {
    let length = length as u32;
    (0..bound.pow(length)).map(move |code| (0..length).map(|place| code / bound.pow(place) % bound).collect())
}
