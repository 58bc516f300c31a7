//! Maps and sets whose keys are found by hashes.
use super::rattle_std::alloc::Global;
use super::rattle_std::collections::{HashMap, HashSet};
use super::rattle_std::hash::{FoldHasher, KeyHasher};
use super::rattle_std::indexmap::{IndexMap, IndexSet};
use super::{Drawn, OPERATIONS};
use std::collections;
use std::hash::{Hash, Hasher};

/// A key of which many have the same hash.
#[derive(Clone, Copy, Debug, PartialEq, Eq)]
struct Colliding(u64);

impl Hash for Colliding {
    fn hash<H: Hasher>(&self, state: &mut H) {
        state.write_u64(self.0 % 16);
    }
}

/// Compares a map with the list of its entries in the order in which their keys came.
fn try_index_map<K: Copy + std::fmt::Debug + Eq + Hash>(seed: u64, keys: u64, operations: u64, key_of: fn(u64) -> K) {
    let mut drawn = Drawn::of(seed);
    let mut map = IndexMap::new(Global);
    let mut list: Vec<(K, u64)> = Vec::new();
    for number in 0..operations {
        let key = key_of(drawn.below(keys));
        let place = list.iter().position(|(known, _)| *known == key);
        assert_eq!(map.get_index_of(&key), place);
        assert_eq!(map.get(&key), place.map(|place| &list[place].1));
        match drawn.below(8) {
            0 => assert_eq!(map.pop(), list.pop()),
            1 => {
                let value = map.entry(key).unwrap().or_insert(number);
                match place {
                    Some(place) => assert_eq!(*value, list[place].1),
                    None => list.push((key, number)),
                }
            }
            2 if !list.is_empty() => {
                let place = drawn.below(list.len() as u64) as usize;
                *map.get_index_mut(place).unwrap() = number;
                list[place].1 = number;
            }
            _ => {
                let known = place.map(|place| std::mem::replace(&mut list[place].1, number));
                assert_eq!(map.insert(key, number).unwrap(), known);
                if known.is_none() {
                    list.push((key, number));
                }
            }
        }
        assert_eq!(map.len(), list.len());
        assert_eq!(map.get_index(list.len()), None);
    }
    assert!(map.iter().eq(list.iter().map(|(key, value)| (key, value))));
    map.clear();
    assert_eq!((map.len(), map.get(&key_of(0))), (0, None));
}

#[test]
fn an_index_map_keeps_its_entries_in_the_order_in_which_they_came() {
    try_index_map(1, 50, OPERATIONS, |number| number);
    try_index_map(2, 3_000, 20_000, |number| (number as u32, number * number));
}

#[test]
fn an_index_map_tells_keys_of_one_hash_apart() {
    try_index_map(3, 300, 20_000, Colliding);
}

#[test]
fn an_index_map_with_room_takes_as_many_entries_without_memory() {
    let mut map = IndexMap::with_capacity(Global, 1_000).unwrap();
    let capacity = map.capacity();
    assert!(capacity >= 1_000);
    for key in 0..1_000u64 {
        assert_eq!(map.insert(key, key).unwrap(), None);
    }
    assert_eq!(map.capacity(), capacity);
}

#[test]
fn sets_know_what_they_have() {
    let mut drawn = Drawn::of(4);
    let (mut indexed, mut hashed) = (IndexSet::new(Global), HashSet::new(Global));
    let mut wanted = collections::HashSet::new();
    for _ in 0..OPERATIONS {
        let value = (drawn.below(100), drawn.below(100));
        assert_eq!(indexed.contains(&value), wanted.contains(&value));
        let is_new = wanted.insert(value);
        assert_eq!((indexed.insert(value).unwrap(), hashed.insert(value).unwrap()), (is_new, is_new));
        assert_eq!(indexed.len(), wanted.len());
    }
}

#[test]
fn a_hash_map_is_rusts() {
    let mut drawn = Drawn::of(5);
    let (mut map, mut wanted) = (HashMap::new(Global), collections::HashMap::new());
    for number in 0..OPERATIONS {
        let key = drawn.below(2_000);
        assert_eq!(map.get(&key), wanted.get(&key));
        assert_eq!(map.insert(key, number).unwrap(), wanted.insert(key, number));
        if let Some(value) = map.get_mut(&(key / 2)) {
            *value += 1;
            *wanted.get_mut(&(key / 2)).unwrap() += 1;
        }
        if number % 30_000 == 0 {
            map.clear();
            wanted.clear();
        }
    }
}

/// The hash of bytes.
fn hash_of(bytes: &[u8]) -> u64 {
    let mut hasher = FoldHasher::default();
    hasher.write(bytes);
    hasher.finish()
}

#[test]
fn hashes_are_those_of_rattle() {
    let text: Vec<u8> = (1..=100).collect();
    // Each number of bytes that is read in another way. The hashes were calculated apart from this.
    let wanted = [
        (0, 0xe184_8576_4ba0_3644),
        (1, 0x498c_efea_e007_a4ac),
        (2, 0x524b_32e4_4ca1_f02a),
        (3, 0x0495_dca2_ddd0_8437),
        (4, 0x8a87_2713_bfb1_736c),
        (7, 0xa920_d711_253d_bfc4),
        (8, 0x1d93_f2d5_0268_3e37),
        (9, 0xe6d3_a717_aaf5_ffd0),
        (15, 0x21aa_9183_53cd_efab),
        (16, 0x58f5_9193_9902_bff2),
        (17, 0x9be6_a44d_297b_6425),
        (32, 0xa2da_829b_bd63_568d),
        (33, 0x588b_69fa_c197_173f),
        (100, 0x381b_01d9_6407_636b),
    ];
    for (length, hash) in wanted {
        assert_eq!(hash_of(&text[..length]), hash, "{length} bytes");
    }
    let mut hasher = FoldHasher::default();
    hasher.write(b"plan");
    hasher.write(b"certificate");
    assert_eq!(hasher.finish(), 0x87cf_54b9_9954_9082);
}

#[test]
fn a_key_has_one_hash_and_near_keys_have_others() {
    let hash_of = |key: (u32, u32)| {
        let mut hasher = KeyHasher::default();
        key.hash(&mut hasher);
        hasher.finish()
    };
    let keys = || (0..300).flat_map(|x| (0..300).map(move |y| (x, y)));
    let hashes: collections::HashSet<u64> = keys().map(hash_of).collect();
    assert_eq!(hashes.len(), keys().count());
    assert!(keys().all(|key| hashes.contains(&hash_of(key))));
}

#[test]
fn a_hash_depends_on_each_byte_and_on_nothing_else() {
    let text: Vec<u8> = (0..100).collect();
    for length in 0..text.len() {
        let hash = hash_of(&text[..length]);
        assert_eq!(hash, hash_of(&text[..length]));
        for place in 0..length {
            let mut other = text[..length].to_vec();
            other[place] ^= 1;
            assert_ne!(hash, hash_of(&other), "byte {place} of {length}");
        }
    }
}
