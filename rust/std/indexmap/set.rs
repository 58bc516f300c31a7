//! A set in the order of insertion.
use super::super::alloc::{AllocFailed, Global};
use super::map::IndexMap;
use std::hash::Hash;

/// A set in the order of insertion, whose growth is an error if memory is refused. What takes how long is as for
/// [`IndexMap`].
pub struct IndexSet<T>(IndexMap<T, ()>);

impl<T: Eq + Hash> IndexSet<T> {
    /// Makes an empty set, which has no memory.
    pub fn new(alloc: Global) -> IndexSet<T> {
        IndexSet(IndexMap::new(alloc))
    }

    /// Returns how many values there are.
    #[inline]
    pub fn len(&self) -> usize {
        self.0.len()
    }

    /// Returns whether a value is in the set.
    #[inline]
    pub fn contains(&self, value: &T) -> bool {
        self.0.get_index_of(value).is_some()
    }

    /// Adds a value, and returns whether it is new. If memory is refused, the set is as it was.
    #[inline]
    pub fn insert(&mut self, value: T) -> Result<bool, AllocFailed<T>> {
        match self.0.insert(value, ()) {
            Ok(before) => Ok(before.is_none()),
            Err(AllocFailed { value: (value, ()) }) => Err(AllocFailed { value }),
        }
    }
}
