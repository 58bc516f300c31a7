//! Maps and sets in the order of their keys, and the heap, against Rust's own.
use super::rattle_std::alloc::Global;
use super::rattle_std::collections::{BTreeMap, BTreeSet, BinaryHeap};
use super::{Drawn, OPERATIONS};
use std::cmp::Reverse;
use std::collections;

/// Compares all that a map tells with Rust's own.
fn assert_same(map: &BTreeMap<u64, u64>, wanted: &collections::BTreeMap<u64, u64>) {
    assert!(map.iter().eq(wanted.iter()));
    assert!(map.values().eq(wanted.values()));
    assert_eq!(map.first_key_value(), wanted.first_key_value());
}

/// Draws insertions and removals of keys below a bound, of which so many in ten are removals.
fn try_map(seed: u64, keys: u64, removals: u64) {
    let mut drawn = Drawn::of(seed);
    let (mut map, mut wanted) = (BTreeMap::new(Global), collections::BTreeMap::new());
    for number in 0..OPERATIONS {
        let key = drawn.below(keys);
        assert_eq!(map.get(&key), wanted.get(&key));
        assert_eq!(map.get_mut(&key), wanted.get_mut(&key));
        if drawn.below(10) < removals {
            assert_eq!(map.remove(&key), wanted.remove(&key));
        } else {
            assert_eq!(map.insert(key, number).unwrap(), wanted.insert(key, number));
        }
        if number % 10_000 == 0 {
            assert_same(&map, &wanted);
        }
    }
    assert_same(&map, &wanted);
    let rest: Vec<u64> = wanted.keys().copied().collect();
    for key in rest {
        assert_eq!(map.remove(&key), wanted.remove(&key));
    }
    assert_same(&map, &wanted);
}

#[test]
fn a_small_map_is_rusts() {
    try_map(1, 40, 5);
}

#[test]
fn a_large_map_is_rusts() {
    try_map(2, 1_000_000, 1);
    try_map(3, 20_000, 4);
}

#[test]
fn a_map_of_rising_and_of_falling_keys_is_rusts() {
    for is_rising in [true, false] {
        let (mut map, mut wanted) = (BTreeMap::new(Global), collections::BTreeMap::new());
        for number in 0..20_000 {
            let key = if is_rising { number } else { 20_000 - number };
            assert_eq!(map.insert(key, number).unwrap(), wanted.insert(key, number));
        }
        assert_same(&map, &wanted);
        // An open list takes the least key again and again.
        while let Some((&key, _)) = map.first_key_value() {
            assert_eq!(map.remove(&key), wanted.remove(&key));
        }
        assert!(wanted.is_empty());
        assert_same(&map, &wanted);
        assert_eq!(map.insert(1, 2).unwrap(), None);
        assert_eq!(map.get(&1), Some(&2));
    }
}

#[test]
fn a_map_whose_leaves_got_short_is_rusts() {
    let (mut map, mut wanted) = (BTreeMap::new(Global), collections::BTreeMap::new());
    for number in 0..20_000 {
        assert_eq!(map.insert(number, number).unwrap(), wanted.insert(number, number));
    }
    // Each key but one in a hundred goes, the greatest ones of leaves too, and then some come again.
    for number in (0..20_000).filter(|number| number % 100 != 50) {
        assert_eq!(map.remove(&number), wanted.remove(&number));
    }
    assert_same(&map, &wanted);
    for number in (0..20_000).step_by(7) {
        assert_eq!(map.insert(number, 1).unwrap(), wanted.insert(number, 1));
        assert_eq!(map.get(&(number + 1)), wanted.get(&(number + 1)));
    }
    assert_same(&map, &wanted);
    let mut set = BTreeSet::new(Global);
    for key in wanted.keys() {
        assert!(set.insert(*key).unwrap());
    }
    for from in 0..=20_000 {
        assert_eq!(set.range(from..).next(), wanted.range(from..).next().map(|(key, _)| key));
    }
}

#[test]
fn a_set_is_rusts() {
    let mut drawn = Drawn::of(4);
    let (mut set, mut wanted) = (BTreeSet::new(Global), collections::BTreeSet::new());
    for _ in 0..OPERATIONS {
        let key = drawn.below(5_000);
        assert_eq!(set.contains(&key), wanted.contains(&key));
        if drawn.below(3) == 0 {
            assert_eq!(set.remove(&key), wanted.remove(&key));
        } else {
            assert_eq!(set.insert(key).unwrap(), wanted.insert(key));
        }
        let from = drawn.below(5_000);
        assert!(set.range(from..).take(3).eq(wanted.range(from..).take(3)));
    }
    assert!(set.range(0..).eq(wanted.iter()));
}

#[test]
fn a_heap_is_rusts() {
    let mut drawn = Drawn::of(5);
    let (mut heap, mut wanted) = (BinaryHeap::new(Global), collections::BinaryHeap::new());
    for number in 0..OPERATIONS {
        assert_eq!(heap.len(), wanted.len());
        if drawn.below(5) < 2 {
            assert_eq!(heap.pop(), wanted.pop());
        } else {
            let item = Reverse((drawn.below(1_000), number));
            heap.push(item).unwrap();
            wanted.push(item);
        }
    }
}
