//! A short list without memory of the heap. It stands for Rattle's port of the crate `smallvec`.
//!
//! The port moves its items to the heap when they are more than `N`. No list of the sources gets so long: each has the
//! steps from one cell, which are five at most. So there is no heap here, and one more item is refused as memory is.
use super::alloc::{AllocFailed, Global};

/// A list of at most `N` items.
#[derive(Clone, Copy, Debug)]
pub struct SmallVec<T, const N: usize> {
    // The items, followed by what isn't used.
    room: [T; N],
    len: usize,
}

impl<T: Copy + Default, const N: usize> SmallVec<T, N> {
    /// Makes an empty list.
    #[inline(always)]
    pub fn new(_alloc: Global) -> SmallVec<T, N> {
        SmallVec { room: [T::default(); N], len: 0 }
    }
}

impl<T, const N: usize> SmallVec<T, N> {
    /// Adds an item behind the others. It is an error if there are `N`.
    #[inline(always)]
    pub fn push(&mut self, value: T) -> Result<(), AllocFailed<T>> {
        if self.len == N {
            return Err(AllocFailed { value });
        }
        self.push_reserved(value);
        Ok(())
    }

    /// Adds an item behind the others, which are fewer than `N`.
    ///
    /// # Panics
    ///
    /// If there are `N`.
    #[inline(always)]
    pub fn push_reserved(&mut self, value: T) {
        self.room[self.len] = value;
        self.len += 1;
    }

    /// Returns how many items there are.
    #[inline(always)]
    pub fn len(&self) -> usize {
        self.len
    }

    /// Returns the items.
    #[inline(always)]
    pub fn as_slice(&self) -> &[T] {
        &self.room[..self.len]
    }

    /// Returns the items, which may be changed.
    #[inline(always)]
    pub fn as_mut_slice(&mut self) -> &mut [T] {
        &mut self.room[..self.len]
    }
}
