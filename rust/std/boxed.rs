//! A value on the heap. It stands for `Box` of Rattle's std.
//!
//! Rust's own ends the process where memory is refused, and has nothing that doesn't. A vector has `try_reserve`, and one
//! of a single item becomes a box of an array without another request.
use super::alloc::{AllocFailed, Global};
use std::boxed;
use std::fmt;
use std::ops::{Deref, DerefMut};

/// A box of Rust's own, the making of which is an error if memory is refused.
pub struct Box<T>(boxed::Box<[T; 1]>);

impl<T> Box<T> {
    /// Puts a value on the heap.
    pub fn new(_alloc: Global, value: T) -> Result<Box<T>, AllocFailed<T>> {
        let mut items = Vec::new();
        if items.try_reserve_exact(1).is_err() {
            return Err(AllocFailed { value });
        }
        items.push(value);
        match items.into_boxed_slice().try_into() {
            Ok(item) => Ok(Box(item)),
            Err(_) => unreachable!("a vector of one item becomes an array of one"),
        }
    }

    /// Returns Rust's box that this one is.
    #[cfg(feature = "c")]
    pub fn into_std(it: Box<T>) -> boxed::Box<[T; 1]> {
        it.0
    }

    /// Returns the box that Rust's box becomes, without a request for memory.
    #[cfg(feature = "c")]
    pub fn from_std(it: boxed::Box<[T; 1]>) -> Box<T> {
        Box(it)
    }
}

impl<T> Deref for Box<T> {
    type Target = T;

    fn deref(&self) -> &T {
        let [value] = &*self.0;
        value
    }
}

impl<T> DerefMut for Box<T> {
    fn deref_mut(&mut self) -> &mut T {
        let [value] = &mut *self.0;
        value
    }
}

impl<T: fmt::Debug> fmt::Debug for Box<T> {
    fn fmt(&self, f: &mut fmt::Formatter<'_>) -> fmt::Result {
        (**self).fmt(f)
    }
}
