//! What the checker of the crate `mapf_checker` says of worked examples and of changes of their texts, and after how
//! many bytes it says so.
#[path = "judge/judging.rs"]
mod judging;
#[path = "judge/lemmas.rs"]
mod lemmas;
#[path = "judge/plans.rs"]
mod plans;
#[path = "judge/trees.rs"]
mod trees;
