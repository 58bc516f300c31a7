//! What stands for Rattle's standard library and for its ports of crates, as far as the sources use them.
//!
//! The sources are written in Rattle, where each request for memory may be refused, and then is an error that the caller
//! has to handle. Rust's collections end the process instead. Those here don't: whatever they hold was reserved before,
//! by a `try_reserve` that may fail. [`alloc`] says more, and lists what remains. The types and methods have Rattle's
//! names and take the allocator as they do there. None of this is unsafe code, and no other crate is used.
//!
//! The features are those of the package: what only the program, the benchmark and the fuzzer use is there with `cli`,
//! and what only the calls for C use with `c`.
#![forbid(unsafe_code)]

pub mod alloc;
#[cfg(feature = "cli")]
pub mod anyhow;
mod boxed;
pub mod clap;
pub mod collections;
#[cfg(feature = "cli")]
pub mod env;
#[cfg(feature = "cli")]
pub mod fs;
pub mod hash;
pub mod indexmap;
#[cfg(feature = "cli")]
pub mod io;
pub mod itoa;
mod macros;
#[cfg(feature = "cli")]
pub mod process;
pub mod random;
#[cfg(feature = "cli")]
pub mod rt;
pub mod smallvec;
mod string;
mod vec;

pub use boxed::Box;
#[cfg(feature = "cli")]
pub(crate) use macros::println_rt;
pub(crate) use macros::{format_in, vec_in};
#[cfg(feature = "cli")]
pub use rt::HostRuntime;
pub use string::String;
pub use vec::Vec;

/// What each module of the sources has without an import.
pub mod prelude {
    #[cfg(feature = "c")]
    pub use super::boxed::Box;
    #[cfg(feature = "cli")]
    pub use super::rt::HostRuntime;
    pub use super::string::{String, ToStringIn};
    pub use super::vec::Vec;
}
