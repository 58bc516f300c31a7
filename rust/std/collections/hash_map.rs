//! A map by hashes. It stands for `HashMap` of Rattle's std.
use super::super::alloc::{AllocFailed, Global};
use super::super::hash::KeyHasher;
use std::borrow::Borrow;
use std::collections;
use std::hash::{BuildHasherDefault, Hash};

/// Rust's map by hashes, whose growth is an error if memory is refused.
#[derive(Debug)]
pub struct HashMap<K, V>(collections::HashMap<K, V, BuildHasherDefault<KeyHasher>>);

impl<K: Eq + Hash, V> HashMap<K, V> {
    /// Makes an empty map, which has no memory.
    #[inline]
    pub fn new(_alloc: Global) -> HashMap<K, V> {
        HashMap(collections::HashMap::default())
    }

    /// Returns the value of a key.
    #[inline]
    pub fn get<Q: ?Sized + Eq + Hash>(&self, key: &Q) -> Option<&V>
    where
        K: Borrow<Q>,
    {
        self.0.get(key)
    }

    /// Returns the value of a key, which may be changed.
    #[inline]
    pub fn get_mut<Q: ?Sized + Eq + Hash>(&mut self, key: &Q) -> Option<&mut V>
    where
        K: Borrow<Q>,
    {
        self.0.get_mut(key)
    }

    /// Sets the value of a key, and returns the one that it had. If memory is refused, the map is as it was.
    #[inline]
    pub fn insert(&mut self, key: K, value: V) -> Result<Option<V>, AllocFailed<(K, V)>> {
        if self.0.len() == self.0.capacity() && self.0.try_reserve(1).is_err() {
            return Err(AllocFailed { value: (key, value) });
        }
        Ok(self.0.insert(key, value))
    }

    /// Removes all keys, and keeps the room.
    #[inline]
    pub fn clear(&mut self) {
        self.0.clear();
    }
}
