//! The plan that the second search begins with, and its improvements: a valid plan is found wherever there is one, and
//! improvements make it no dearer.
#[path = "plans/drawn.rs"]
mod drawn;
#[path = "plans/planned.rs"]
pub mod planned;
#[path = "plans/worked.rs"]
mod worked;
