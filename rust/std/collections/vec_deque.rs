//! A queue with two ends. It stands for `VecDeque` of Rattle's std.
//!
//! Rust's `shrink_to` ends the process where memory is refused, so [`VecDeque::shrink_to`] moves the items to another
//! queue for which it has reserved room.
use super::super::alloc::{AllocFailed, Global};
use std::collections;

/// Rust's queue with two ends, whose growth is an error if memory is refused.
#[derive(Debug)]
pub struct VecDeque<T>(collections::VecDeque<T>);

impl<T> VecDeque<T> {
    /// Makes an empty queue, which has no memory.
    #[inline]
    pub fn new(_alloc: Global) -> VecDeque<T> {
        VecDeque(collections::VecDeque::new())
    }

    /// Adds an item at the end. If memory is refused, the queue is as it was.
    #[inline]
    pub fn push_back(&mut self, value: T) -> Result<(), AllocFailed<T>> {
        if self.0.len() == self.0.capacity() && self.0.try_reserve(1).is_err() {
            return Err(AllocFailed { value });
        }
        self.0.push_back(value);
        Ok(())
    }

    /// Removes the item at the begin, and returns it.
    #[inline]
    pub fn pop_front(&mut self) -> Option<T> {
        self.0.pop_front()
    }

    /// Returns how many items there are.
    #[inline]
    pub fn len(&self) -> usize {
        self.0.len()
    }

    /// Returns whether there is no item.
    #[inline]
    pub fn is_empty(&self) -> bool {
        self.0.is_empty()
    }

    /// Gives memory back, but keeps room for so many items at least and for those that are there. If the memory for less
    /// room is refused, the queue is as it was.
    pub fn shrink_to(&mut self, capacity: usize) {
        let room = capacity.max(self.0.len());
        if room >= self.0.capacity() {
            return;
        }
        let mut smaller = collections::VecDeque::new();
        if smaller.try_reserve_exact(room).is_ok() {
            smaller.append(&mut self.0);
            self.0 = smaller;
        }
    }
}
