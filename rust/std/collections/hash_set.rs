//! A set by hashes. It stands for `HashSet` of Rattle's std.
use super::super::alloc::{AllocFailed, Global};
use super::hash_map::HashMap;
use std::hash::Hash;

/// A set by hashes, whose growth is an error if memory is refused.
#[derive(Debug)]
pub struct HashSet<T>(HashMap<T, ()>);

impl<T: Eq + Hash> HashSet<T> {
    /// Makes an empty set, which has no memory.
    #[inline]
    pub fn new(alloc: Global) -> HashSet<T> {
        HashSet(HashMap::new(alloc))
    }

    /// Adds a value, and returns whether it is new. If memory is refused, the set is as it was.
    #[inline]
    pub fn insert(&mut self, value: T) -> Result<bool, AllocFailed<T>> {
        match self.0.insert(value, ()) {
            Ok(before) => Ok(before.is_none()),
            Err(AllocFailed { value: (value, ()) }) => Err(AllocFailed { value }),
        }
    }
}
