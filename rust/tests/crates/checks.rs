//! Checks of a plan text and a certificate: over memory and over streams, of worked texts and of hostile ones.
#[path = "checks/answers.rs"]
mod answers;
#[path = "checks/hostile.rs"]
mod hostile;
#[path = "checks/streams.rs"]
mod streams;
