//! Collections whose growth can be refused. They stand for those of Rattle's `std::collections`.
//!
//! Rust's own hash maps, heaps and double-ended queues end the process where memory is refused, but have a `try_reserve`
//! that doesn't; each method here that may grow them calls that first. Rust's ordered maps and sets have none, so those
//! here are other ones.

mod binary_heap;
mod btree_map;
mod btree_set;
mod hash_map;
mod hash_set;
mod vec_deque;

pub use binary_heap::BinaryHeap;
pub use btree_map::BTreeMap;
pub use btree_set::BTreeSet;
pub use hash_map::HashMap;
pub use hash_set::HashSet;
pub use vec_deque::VecDeque;
