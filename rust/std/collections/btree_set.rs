//! A set in rising order. It stands for `BTreeSet` of Rattle's std.
use super::super::alloc::{AllocFailed, Global};
use super::btree_map::BTreeMap;
use std::ops::RangeFrom;

/// A set in rising order, whose growth is an error if memory is refused. What takes how long is as for [`BTreeMap`].
pub struct BTreeSet<T>(BTreeMap<T, ()>);

impl<T: Ord + Copy> BTreeSet<T> {
    /// Makes an empty set, which has no memory.
    #[inline]
    pub fn new(alloc: Global) -> BTreeSet<T> {
        BTreeSet(BTreeMap::new(alloc))
    }

    /// Returns whether a value is in the set.
    #[inline]
    pub fn contains(&self, value: &T) -> bool {
        self.0.get(value).is_some()
    }

    /// Adds a value, and returns whether it is new. If memory is refused, the set has the values that it had.
    #[inline]
    pub fn insert(&mut self, value: T) -> Result<bool, AllocFailed<T>> {
        match self.0.insert(value, ()) {
            Ok(before) => Ok(before.is_none()),
            Err(AllocFailed { value: (value, ()) }) => Err(AllocFailed { value }),
        }
    }

    /// Removes a value, and returns whether it was in the set.
    #[inline]
    pub fn remove(&mut self, value: &T) -> bool {
        self.0.remove(value).is_some()
    }

    /// Returns the values from one on, in rising order.
    #[inline]
    pub fn range(&self, range: RangeFrom<T>) -> impl Iterator<Item = &T> {
        self.0.range_from(&range.start).map(|(value, ())| value)
    }
}
