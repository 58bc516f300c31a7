//! The second search: what it answers, and whether the checker accepts what it writes.
#[path = "groups/answers.rs"]
pub mod answers;
#[path = "groups/drawn.rs"]
mod drawn;
#[path = "groups/worked.rs"]
mod worked;
