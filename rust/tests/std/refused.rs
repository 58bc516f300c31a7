//! Requests for memory that are refused, each in turn: what was asked for is then an error, and what was there is as it
//! was.
use super::rattle_std::alloc::{AllocError, AllocFailed, Global};
use super::rattle_std::collections::{BTreeMap, BTreeSet, BinaryHeap, HashMap, HashSet, VecDeque};
use super::rattle_std::indexmap::{IndexMap, IndexSet};
use super::rattle_std::prelude::ToStringIn;
use super::rattle_std::{Box, String, Vec, format_in, vec_in};
use super::refusing::{Refused, refusing};
use std::fmt::Debug;
use std::iter;

/// Applies a step again and again to a value. Before a step takes effect each of its requests for memory is refused in
/// turn: the step then fails, and what `seen` shows of the value is as it was. Returns the value after the last step.
fn try_steps<V, S: PartialEq + Debug>(
    mut value: V,
    seen: impl Fn(&V) -> S,
    steps: u64,
    step: impl Fn(&mut V, u64) -> Result<(), AllocError>,
) -> V {
    let mut refused = 0;
    for number in 0..steps {
        let before = seen(&value);
        for count in 0.. {
            let (result, is_refused) = refusing(Refused::One, count, || step(&mut value, number));
            assert_eq!(result.is_err(), is_refused == 1, "step {number}, request {count}");
            if result.is_ok() {
                break;
            }
            refused += 1;
            assert_eq!(seen(&value), before, "step {number}, request {count}");
        }
    }
    assert!(refused > 0);
    value
}

#[test]
fn lists_stay_as_they_were() {
    let seen = |list: &Vec<u64>| list.to_vec();
    try_steps(Vec::new(Global), seen, 200, |list, number| Ok(list.push(number)?));
    try_steps(Vec::new(Global), seen, 200, |list, number| Ok(list.insert(0, number)?));
    try_steps(Vec::new(Global), seen, 50, |list, number| list.extend_from_slice(&[number; 5]));
    try_steps(Vec::new(Global), seen, 50, |list, number| list.resize(list.len() + 3, number));
    try_steps(Vec::new(Global), seen, 20, |list, number| list.reserve(number as usize * 100));
    try_steps(String::new(Global), |text| text.as_str().to_owned(), 200, |text, _| Ok(text.push('x')?));
    try_steps(String::new(Global), |text| text.as_str().to_owned(), 200, |text, _| text.push_str("abc"));
}

#[test]
fn ordered_collections_stay_as_they_were() {
    let entries =
        |map: &BTreeMap<u64, u64>| map.iter().map(|(key, value)| (*key, *value)).collect::<std::vec::Vec<_>>();
    try_steps(BTreeMap::new(Global), entries, 3_000, |map, number| {
        map.insert(number * 7_919 % 3_001, number)?;
        Ok(())
    });
    try_steps(
        BTreeSet::new(Global),
        |set| set.range(0..).copied().collect::<std::vec::Vec<u64>>(),
        300,
        |set, number| {
            set.insert(number * 7_919 % 3_001)?;
            Ok(())
        },
    );
    let mut heap = try_steps(BinaryHeap::new(Global), BinaryHeap::len, 300, |heap, number| Ok(heap.push(number)?));
    assert!(iter::from_fn(|| heap.pop()).eq((0..300).rev()));
}

#[test]
fn a_map_of_rising_keys_stays_as_it_was() {
    // The leaves stay half full, so that branches are split too.
    let entries =
        |map: &BTreeMap<u64, u64>| map.iter().map(|(key, value)| (*key, *value)).collect::<std::vec::Vec<_>>();
    let mut map = try_steps(BTreeMap::new(Global), entries, 3_500, |map, number| {
        map.insert(number, number)?;
        Ok(())
    });
    // To find, to set and to remove a key takes no memory.
    let ((), requests) = refusing(Refused::All, 0, || {
        for key in 0..3_500 {
            assert_eq!(map.insert(key, 1), Ok(Some(key)));
            assert_eq!(map.get_mut(&key), Some(&mut 1));
            assert_eq!(map.remove(&key), Some(1));
        }
    });
    assert_eq!(requests, 0);
}

#[test]
fn a_queue_stays_as_it_was() {
    let mut queue = try_steps(VecDeque::new(Global), VecDeque::len, 300, |queue, number| Ok(queue.push_back(number)?));
    let ((), requests) = refusing(Refused::One, 0, || queue.shrink_to(0));
    assert_eq!((requests, queue.len()), (1, 300));
    queue.shrink_to(0);
    // Now there is room for no more, so one more item takes memory.
    let (failed, requests) = refusing(Refused::One, 0, || queue.push_back(300));
    assert_eq!((failed, requests), (Err(AllocFailed { value: 300 }), 1));
    assert!(iter::from_fn(|| queue.pop_front()).eq(0..300));
}

#[test]
fn hashed_collections_stay_as_they_were() {
    let entries =
        |map: &IndexMap<u64, u64>| map.iter().map(|(key, value)| (*key, *value)).collect::<std::vec::Vec<_>>();
    try_steps(IndexMap::new(Global), entries, 1_000, |map, number| {
        map.insert(number * number, number)?;
        Ok(())
    });
    try_steps(IndexMap::new(Global), entries, 1_000, |map, number| {
        map.entry(number * number)?.or_insert(number);
        Ok(())
    });
    let known = |set: &IndexSet<u64>| (0..500).map(|value| set.contains(&value)).collect::<std::vec::Vec<_>>();
    try_steps(IndexSet::new(Global), known, 500, |set, number| {
        set.insert(number)?;
        Ok(())
    });
    let found = |map: &HashMap<u64, u64>| (0..500).map(|key| map.get(&key).copied()).collect::<std::vec::Vec<_>>();
    try_steps(HashMap::new(Global), found, 500, |map, number| {
        map.insert(number, number)?;
        Ok(())
    });
    // A value that was refused is new still.
    let add = |set: &mut HashSet<u64>, number| {
        assert!(set.insert(number)?);
        Ok(())
    };
    try_steps(HashSet::new(Global), |_| (), 500, add);
}

#[test]
fn what_is_made_anew_is_an_error() {
    try_steps((), |_| (), 1, |(), _| Vec::from_slice(Global, &[1, 2, 3]).map(drop));
    try_steps((), |_| (), 1, |(), _| Vec::from_array(Global, [1, 2, 3]).map(drop));
    try_steps((), |_| (), 1, |(), _| Vec::<u64>::with_capacity(Global, 9).map(drop));
    try_steps((), |_| (), 1, |(), _| vec_in![Global; 0u8; 9].map(drop));
    try_steps((), |_| (), 1, |(), _| vec_in![Global; 1, 2, 3].map(drop));
    let list = Vec::from_slice(Global, &[1, 2, 3]).unwrap();
    try_steps((), |_| (), 1, |(), _| list.try_clone().map(drop));
    try_steps((), |_| (), 1, |(), _| IndexMap::<u64, u64>::with_capacity(Global, 9).map(drop));
    try_steps((), |_| (), 1, |(), _| String::from_str(Global, "text").map(drop));
    try_steps((), |_| (), 1, |(), _| format_in!(Global; "{:>100}{list:?}", "text").map(drop));
    try_steps((), |_| (), 1, |(), _| 12.to_string_in(Global).map(drop));
    try_steps(
        (),
        |_| (),
        1,
        |(), _| {
            Box::new(Global, 5)?;
            Ok(())
        },
    );
}

#[test]
fn more_than_there_can_be_is_an_error() {
    assert!(Vec::<u64>::with_capacity(Global, usize::MAX).is_err());
    for capacity in [usize::MAX, usize::MAX / 2, isize::MAX as usize, 1 << 40] {
        assert!(IndexMap::<u64, u64>::with_capacity(Global, capacity).is_err());
        assert!(IndexMap::<(), ()>::with_capacity(Global, capacity).is_err());
    }
    assert!(vec_in![Global; 0u64; usize::MAX].is_err());
    assert!(vec_in![Global; 0u8; isize::MAX as usize].is_err());
    let mut list = Vec::from_array(Global, [1u64]).unwrap();
    assert!(list.reserve(isize::MAX as usize).is_err());
    assert!(list.reserve(usize::MAX).is_err());
    assert!(list.resize(usize::MAX, 0).is_err());
    assert_eq!(list.as_slice(), [1]);
    let mut queue = VecDeque::new(Global);
    queue.push_back(1).unwrap();
    queue.shrink_to(usize::MAX);
    assert_eq!(queue.pop_front(), Some(1));
}
