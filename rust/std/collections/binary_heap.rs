//! A priority queue. It stands for `BinaryHeap` of Rattle's std.
//!
//! Two items that compare as equal may leave Rust's heap in another order than Rattle's. Those of the sources are equal
//! in all of their members then, so nothing tells them apart.
use super::super::alloc::{AllocFailed, Global};
use std::collections;

/// Rust's priority queue, whose growth is an error if memory is refused.
#[derive(Debug)]
pub struct BinaryHeap<T>(collections::BinaryHeap<T>);

impl<T: Ord> BinaryHeap<T> {
    /// Makes an empty queue, which has no memory.
    #[inline]
    pub fn new(_alloc: Global) -> BinaryHeap<T> {
        BinaryHeap(collections::BinaryHeap::new())
    }

    /// Adds an item. If memory is refused, the queue is as it was.
    #[inline]
    pub fn push(&mut self, value: T) -> Result<(), AllocFailed<T>> {
        if self.0.len() == self.0.capacity() && self.0.try_reserve(1).is_err() {
            return Err(AllocFailed { value });
        }
        self.0.push(value);
        Ok(())
    }

    /// Removes the greatest item, and returns it.
    #[inline]
    pub fn pop(&mut self) -> Option<T> {
        self.0.pop()
    }

    /// Returns how many items there are.
    #[inline]
    pub fn len(&self) -> usize {
        self.0.len()
    }
}
