//! A map and a set in the order of insertion. They stand for Rattle's port of the crate `indexmap`.
//!
//! That crate isn't Rust's own, and the program depends on none, so they are written here. Their memory is that of two
//! vectors, whose growth can be refused by `try_reserve`.

pub mod map;
mod set;

pub use map::IndexMap;
pub use set::IndexSet;
