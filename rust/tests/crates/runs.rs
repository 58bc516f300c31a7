//! What the runs of the crate `mapf_app` answer over texts in memory. The cases of `tests/cases` show the bytes that they
//! write.
#[path = "runs/faults.rs"]
mod faults;
#[path = "runs/following.rs"]
mod following;
#[path = "runs/solving.rs"]
mod solving;
