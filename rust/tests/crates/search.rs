//! What the search of the crate `mapf_cbs` answers, with its tree.
#[path = "search/answers.rs"]
mod answers;
#[path = "search/large.rs"]
mod large;
#[path = "search/worked.rs"]
mod worked;
