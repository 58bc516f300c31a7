//! A map in the order of insertion.
use super::super::alloc::{AllocError, AllocFailed, Global};
use super::super::hash::KeyHasher;
use std::hash::{Hash, Hasher};
use std::mem;
use std::slice;

/// A map in the order of insertion, whose growth is an error if memory is refused.
///
/// The entries stand in a list, so each has a number, and a table has the numbers by the hashes of the keys. It is at
/// most half full, and a key is looked for from the place of its hash on up to the first free place. To find or to add a
/// key takes constant time in the mean, also over a growth, which doubles the table.
pub struct IndexMap<K, V> {
    entries: Vec<Entry<K, V>>,
    // The table has 0 or a power of two places, at most twice as many as `entries` has room for. A place that is taken
    // has the hash of a key in its upper half, and the number of its entry and 1 in the lower one. The others have 0.
    table: Vec<u64>,
}

#[derive(Clone, Copy)]
struct Entry<K, V> {
    hash: u32,
    key: K,
    value: V,
}

/// How many places a table has at least, if it has any.
const FEWEST_PLACES: usize = 16;

/// How many places a table has at most: the hashes have 32 bits.
const MOST_PLACES: u64 = 1 << 32;

impl<K: Eq + Hash, V> IndexMap<K, V> {
    /// Makes an empty map, which has no memory.
    pub fn new(_alloc: Global) -> IndexMap<K, V> {
        IndexMap { entries: Vec::new(), table: Vec::new() }
    }

    /// Makes an empty map with room for so many entries.
    pub fn with_capacity(alloc: Global, capacity: usize) -> Result<IndexMap<K, V>, AllocError> {
        let mut made = IndexMap::new(alloc);
        if capacity > 0 {
            made.grow(capacity)?;
        }
        Ok(made)
    }

    /// Returns how many entries the map has room for.
    pub fn capacity(&self) -> usize {
        self.table.len() / 2
    }

    /// Returns how many entries there are.
    #[inline(always)]
    pub fn len(&self) -> usize {
        self.entries.len()
    }

    /// Returns the number of a key's entry.
    #[inline(always)]
    pub fn get_index_of(&self, key: &K) -> Option<usize> {
        self.find(key, hash_of(key)).ok()
    }

    /// Returns the value of a key.
    #[inline(always)]
    pub fn get(&self, key: &K) -> Option<&V> {
        let number = self.get_index_of(key)?;
        Some(&self.entries[number].value)
    }

    /// Returns the entry with a number.
    #[inline(always)]
    pub fn get_index(&self, number: usize) -> Option<(&K, &V)> {
        self.entries.get(number).map(|entry| (&entry.key, &entry.value))
    }

    /// Returns the value of the entry with a number. It may be changed.
    #[inline(always)]
    pub fn get_index_mut(&mut self, number: usize) -> Option<&mut V> {
        self.entries.get_mut(number).map(|entry| &mut entry.value)
    }

    /// Returns the entries in their order.
    pub fn iter(&self) -> Iter<'_, K, V> {
        Iter(self.entries.iter())
    }

    /// Sets the value of a key, and returns the one that it had. A new key gets the next number. If memory is refused, the
    /// map is as it was.
    #[inline(always)]
    pub fn insert(&mut self, key: K, value: V) -> Result<Option<V>, AllocFailed<(K, V)>> {
        match self.place_for(&key) {
            Ok(Place::Taken(number)) => Ok(Some(mem::replace(&mut self.entries[number].value, value))),
            Ok(Place::Free { place, hash }) => {
                self.add(place, Entry { hash, key, value });
                Ok(None)
            }
            Err(AllocError) => Err(AllocFailed { value: (key, value) }),
        }
    }

    /// Returns the value of a key, and lets a value be added if the key is new. If memory for a new key is refused, the map
    /// is as it was.
    #[inline(always)]
    pub fn entry(&mut self, key: K) -> Result<KeyEntry<'_, K, V>, AllocError> {
        let place = self.place_for(&key)?;
        Ok(KeyEntry { map: self, key, place })
    }

    /// Removes the entry that was added last, and returns it.
    #[inline(always)]
    pub fn pop(&mut self) -> Option<(K, V)> {
        let Entry { hash, key, value } = self.entries.pop()?;
        // Nothing was added since this one, so no other key is looked for beyond its place.
        let (mask, wanted) = (self.table.len() - 1, taken_by(hash, self.entries.len()));
        let mut place = hash as usize & mask;
        while self.table[place] != wanted {
            place = (place + 1) & mask;
        }
        self.table[place] = 0;
        Some((key, value))
    }

    /// Removes all entries, and keeps the room. This takes time for all the room that there is.
    pub fn clear(&mut self) {
        self.entries.clear();
        self.table.fill(0);
    }

    /// Finds the number of a key's entry, or a free place of the table for it.
    #[inline(always)]
    fn find(&self, key: &K, hash: u32) -> Result<usize, usize> {
        if self.table.is_empty() {
            return Err(0);
        }
        let mask = self.table.len() - 1;
        let mut place = hash as usize & mask;
        loop {
            let taken = self.table[place];
            if taken == 0 {
                return Err(place);
            }
            if (taken >> 32) as u32 == hash {
                let number = taken as u32 as usize - 1;
                if self.entries[number].key == *key {
                    return Ok(number);
                }
            }
            place = (place + 1) & mask;
        }
    }

    /// Finds a key's entry, or a place for a new one, for which there is room then.
    #[inline(always)]
    fn place_for(&mut self, key: &K) -> Result<Place, AllocError> {
        let hash = hash_of(key);
        match self.find(key, hash) {
            Ok(number) => Ok(Place::Taken(number)),
            Err(place) if self.len() < self.capacity() => Ok(Place::Free { place, hash }),
            Err(_) => {
                self.grow(self.len() + 1)?;
                let place = free_place(&self.table, hash);
                Ok(Place::Free { place, hash })
            }
        }
    }

    /// Adds an entry, for which there is room, at a free place of the table.
    #[inline(always)]
    fn add(&mut self, place: usize, entry: Entry<K, V>) {
        self.table[place] = taken_by(entry.hash, self.entries.len());
        self.entries.push(entry);
    }

    /// Makes room for so many entries, more than there are. If memory is refused, the entries and the table stay.
    #[cold]
    fn grow(&mut self, capacity: usize) -> Result<(), AllocError> {
        let places = capacity.checked_mul(2).and_then(usize::checked_next_power_of_two);
        let places = places.ok_or(AllocError)?.max(FEWEST_PLACES);
        if places as u64 > MOST_PLACES {
            return Err(AllocError);
        }
        let mut table = Vec::new();
        table.try_reserve_exact(places)?;
        self.entries.try_reserve_exact(places / 2 - self.entries.len())?;
        table.resize(places, 0);
        for (number, entry) in self.entries.iter().enumerate() {
            let place = free_place(&table, entry.hash);
            table[place] = taken_by(entry.hash, number);
        }
        self.table = table;
        Ok(())
    }
}

/// Returns the hash of a key.
#[inline(always)]
fn hash_of<K: Hash>(key: &K) -> u32 {
    let mut hasher = KeyHasher::default();
    key.hash(&mut hasher);
    let hash = hasher.finish();
    (hash ^ (hash >> 32)) as u32
}

/// Returns what a place of a table has that is taken by the entry with this number.
#[inline(always)]
fn taken_by(hash: u32, number: usize) -> u64 {
    u64::from(hash) << 32 | (number as u64 + 1)
}

/// Returns the first free place of a table from the place of a hash on.
#[inline(always)]
fn free_place(table: &[u64], hash: u32) -> usize {
    let mask = table.len() - 1;
    let mut place = hash as usize & mask;
    while table[place] != 0 {
        place = (place + 1) & mask;
    }
    place
}

/// Where a key is, or where it gets.
enum Place {
    /// The entry with this number.
    Taken(usize),
    /// This free place of the table, for a key with this hash.
    Free { place: usize, hash: u32 },
}

/// A key in a map, with its value, or with room for one if the key is new.
pub struct KeyEntry<'a, K, V> {
    map: &'a mut IndexMap<K, V>,
    key: K,
    place: Place,
}

impl<'a, K: Eq + Hash, V> KeyEntry<'a, K, V> {
    /// Returns the value of the key, which gets this one if it is new.
    #[inline(always)]
    pub fn or_insert(self, value: V) -> &'a mut V {
        let KeyEntry { map, key, place } = self;
        let number = match place {
            Place::Taken(number) => number,
            Place::Free { place, hash } => {
                map.add(place, Entry { hash, key, value });
                map.len() - 1
            }
        };
        &mut map.entries[number].value
    }
}

/// The entries of a map in their order.
pub struct Iter<'a, K, V>(slice::Iter<'a, Entry<K, V>>);

impl<'a, K, V> Iterator for Iter<'a, K, V> {
    type Item = (&'a K, &'a V);

    #[inline]
    fn next(&mut self) -> Option<(&'a K, &'a V)> {
        self.0.next().map(|entry| (&entry.key, &entry.value))
    }
}
