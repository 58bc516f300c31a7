//! Layers, labels and constraints of an agent of the crate `mapf_layers`, beside what trying every step gives.
#[path = "layers/case.rs"]
mod case;
#[path = "layers/far.rs"]
mod far;
#[path = "layers/found.rs"]
mod found;
#[path = "layers/sets.rs"]
mod sets;
#[path = "layers/tried.rs"]
mod tried;
