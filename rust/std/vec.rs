//! A vector whose growth can be refused. It stands for `Vec` of Rattle's std.
//!
//! Rust's own ends the process where memory is refused, but its `try_reserve` doesn't. Here each method that may grow
//! the vector reserves first, and then lets Rust's own method fill what is reserved.
use super::alloc::{AllocError, AllocFailed, Global};
use std::borrow::Borrow;
use std::fmt;
use std::ops::{Deref, DerefMut, RangeBounds};
use std::slice;
use std::vec;

/// Rust's vector, whose growth is an error if memory is refused. The vector is then as it was.
#[derive(PartialEq, Eq, PartialOrd, Ord, Hash)]
pub struct Vec<T>(vec::Vec<T>);

impl<T> Vec<T> {
    /// Makes an empty vector, which has no memory.
    #[inline]
    pub fn new(_alloc: Global) -> Vec<T> {
        Vec(vec::Vec::new())
    }

    /// Makes an empty vector with room for so many items.
    #[inline]
    pub fn with_capacity(_alloc: Global, capacity: usize) -> Result<Vec<T>, AllocError> {
        let mut items = vec::Vec::new();
        items.try_reserve_exact(capacity)?;
        Ok(Vec(items))
    }

    /// Makes a vector of the items of an array.
    #[inline]
    pub fn from_array<const N: usize>(alloc: Global, items: [T; N]) -> Result<Vec<T>, AllocError> {
        let mut made = Vec::with_capacity(alloc, N)?;
        made.0.extend(items);
        Ok(made)
    }

    /// Makes a vector of the items of a slice.
    #[inline]
    pub fn from_slice(alloc: Global, items: &[T]) -> Result<Vec<T>, AllocError>
    where
        T: Copy,
    {
        let mut made = Vec::with_capacity(alloc, items.len())?;
        made.0.extend_from_slice(items);
        Ok(made)
    }

    /// Makes a vector of `count` times the same value.
    #[inline]
    pub fn filled(alloc: Global, value: T, count: usize) -> Result<Vec<T>, AllocError>
    where
        T: Clone,
    {
        let mut made = Vec::with_capacity(alloc, count)?;
        made.0.resize(count, value);
        Ok(made)
    }

    /// Makes a copy.
    #[inline]
    pub fn try_clone(&self) -> Result<Vec<T>, AllocError>
    where
        T: Copy,
    {
        Vec::from_slice(Global, &self.0)
    }

    /// Sees to it that so many more items have room.
    #[inline]
    pub fn reserve(&mut self, additional: usize) -> Result<(), AllocError> {
        Ok(self.0.try_reserve(additional)?)
    }

    /// Makes room for one more item. It is a call of its own, so that loops that add items stay short.
    #[cold]
    #[inline(never)]
    fn grow(&mut self) -> Result<(), AllocError> {
        self.reserve(1)
    }

    /// Adds an item behind the others.
    #[inline(always)]
    pub fn push(&mut self, value: T) -> Result<(), AllocFailed<T>> {
        if self.0.len() == self.0.capacity() && self.grow().is_err() {
            return Err(AllocFailed { value });
        }
        self.0.push(value);
        Ok(())
    }

    /// Adds an item behind the others, for which the caller has reserved room.
    #[inline(always)]
    pub fn push_reserved(&mut self, value: T) {
        self.0.push(value);
    }

    /// Puts an item in this place, and moves those from there on by one place.
    ///
    /// # Panics
    ///
    /// If the place is behind the end.
    #[inline]
    pub fn insert(&mut self, place: usize, value: T) -> Result<(), AllocFailed<T>> {
        if self.0.len() == self.0.capacity() && self.grow().is_err() {
            return Err(AllocFailed { value });
        }
        self.0.insert(place, value);
        Ok(())
    }

    /// Adds the items of a slice behind the others.
    #[inline]
    pub fn extend_from_slice(&mut self, items: &[T]) -> Result<(), AllocError>
    where
        T: Copy,
    {
        self.0.try_reserve(items.len())?;
        self.0.extend_from_slice(items);
        Ok(())
    }

    /// Removes the items behind the first `len`, or adds copies of a value until there are so many.
    #[inline]
    pub fn resize(&mut self, len: usize, value: T) -> Result<(), AllocError>
    where
        T: Clone,
    {
        self.0.try_reserve(len.saturating_sub(self.0.len()))?;
        self.0.resize(len, value);
        Ok(())
    }

    /// Removes the last item, and returns it.
    #[inline(always)]
    pub fn pop(&mut self) -> Option<T> {
        self.0.pop()
    }

    /// Removes the item in this place, and moves those behind it by one place.
    ///
    /// # Panics
    ///
    /// If there is no such item.
    #[inline]
    pub fn remove(&mut self, place: usize) -> T {
        self.0.remove(place)
    }

    /// Removes the items of a range, and returns them one by one.
    ///
    /// # Panics
    ///
    /// If the range isn't one of places.
    #[inline]
    pub fn drain<R: RangeBounds<usize>>(&mut self, range: R) -> vec::Drain<'_, T> {
        self.0.drain(range)
    }

    /// Removes the items behind the first `len`.
    #[inline]
    pub fn truncate(&mut self, len: usize) {
        self.0.truncate(len);
    }

    /// Removes all items, and keeps the room.
    #[inline(always)]
    pub fn clear(&mut self) {
        self.0.clear();
    }

    /// Removes the items that the predicate doesn't accept.
    #[inline]
    pub fn retain<F: FnMut(&T) -> bool>(&mut self, accepts: F) {
        self.0.retain(accepts);
    }

    /// Removes each item that equals the one before it.
    #[inline]
    pub fn dedup(&mut self)
    where
        T: PartialEq,
    {
        self.0.dedup();
    }

    /// Removes each item whose key equals that of the one before it.
    #[inline]
    pub fn dedup_by_key<K: PartialEq, F: FnMut(&mut T) -> K>(&mut self, key: F) {
        self.0.dedup_by_key(key);
    }

    /// Returns the items.
    #[inline(always)]
    pub fn as_slice(&self) -> &[T] {
        &self.0
    }

    /// Returns the items, which may be changed.
    #[inline(always)]
    pub fn as_mut_slice(&mut self) -> &mut [T] {
        &mut self.0
    }
}

impl<T: fmt::Debug> fmt::Debug for Vec<T> {
    fn fmt(&self, f: &mut fmt::Formatter<'_>) -> fmt::Result {
        self.0.fmt(f)
    }
}

impl<T> Deref for Vec<T> {
    type Target = [T];

    #[inline(always)]
    fn deref(&self) -> &[T] {
        &self.0
    }
}

impl<T> DerefMut for Vec<T> {
    #[inline(always)]
    fn deref_mut(&mut self) -> &mut [T] {
        &mut self.0
    }
}

impl<T> Borrow<[T]> for Vec<T> {
    #[inline(always)]
    fn borrow(&self) -> &[T] {
        &self.0
    }
}

impl<T> IntoIterator for Vec<T> {
    type Item = T;
    type IntoIter = vec::IntoIter<T>;

    #[inline(always)]
    fn into_iter(self) -> vec::IntoIter<T> {
        self.0.into_iter()
    }
}

impl<'a, T> IntoIterator for &'a Vec<T> {
    type Item = &'a T;
    type IntoIter = slice::Iter<'a, T>;

    #[inline(always)]
    fn into_iter(self) -> slice::Iter<'a, T> {
        self.0.iter()
    }
}

impl<'a, T> IntoIterator for &'a mut Vec<T> {
    type Item = &'a mut T;
    type IntoIter = slice::IterMut<'a, T>;

    #[inline(always)]
    fn into_iter(self) -> slice::IterMut<'a, T> {
        self.0.iter_mut()
    }
}
