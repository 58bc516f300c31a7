//! The allocator, and the errors of requests for memory that it refuses. They stand for those of Rattle's `std::alloc`.
//!
//! In Rattle whatever takes memory is told from which allocator, and returns an error if that refuses. In Rust a refused
//! request ends the process, but for those that a `try_reserve` makes. So all memory of the program is reserved that
//! way, and what Rust makes without a `try_reserve` is made otherwise in this module tree. These requests remain, and a
//! refused one ends the process:
//!
//! - Rust copies a path of 384 bytes or more to the heap whenever it is handed to the system.
//! - [`fs::canonicalize`](super::fs::canonicalize) copies the path that the system found. The program asks for it only
//!   before it removes an empty output that it made, after two of its paths turned out to be one file.
//! - The benchmark and the fuzzer, but not the program, take the words of the command line from Rust
//!   ([`HostRuntime::of_process`](super::rt::HostRuntime::of_process)), and their errors are texts
//!   ([`anyhow::Error`](super::anyhow::Error)).
//!
//! Nothing here that holds memory implements `Clone`, so a derived `Clone` of the sources takes no memory either.
use std::collections::TryReserveError;
use std::error::Error;
use std::fmt;
use std::io;

/// The allocator of the process.
#[derive(Clone, Copy, Debug)]
pub struct Global;

/// A request for memory was refused.
#[derive(Clone, Copy, Debug, PartialEq, Eq)]
pub struct AllocError;

impl fmt::Display for AllocError {
    fn fmt(&self, f: &mut fmt::Formatter<'_>) -> fmt::Result {
        f.write_str("out of memory")
    }
}

impl Error for AllocError {}

impl From<TryReserveError> for AllocError {
    #[cold]
    fn from(_refused: TryReserveError) -> AllocError {
        AllocError
    }
}

impl From<AllocError> for io::Error {
    fn from(_refused: AllocError) -> io::Error {
        io::Error::from(io::ErrorKind::OutOfMemory)
    }
}

/// A request for memory was refused. The value that was to be kept is given back.
#[derive(Clone, Copy, PartialEq, Eq)]
pub struct AllocFailed<T> {
    /// What was to be kept.
    pub value: T,
}

impl<T> fmt::Debug for AllocFailed<T> {
    fn fmt(&self, f: &mut fmt::Formatter<'_>) -> fmt::Result {
        f.write_str("AllocFailed")
    }
}

impl<T> fmt::Display for AllocFailed<T> {
    fn fmt(&self, f: &mut fmt::Formatter<'_>) -> fmt::Result {
        AllocError.fmt(f)
    }
}

impl<T> Error for AllocFailed<T> {}

impl<T> From<AllocFailed<T>> for AllocError {
    fn from(_refused: AllocFailed<T>) -> AllocError {
        AllocError
    }
}

impl<T> From<AllocFailed<T>> for io::Error {
    fn from(_refused: AllocFailed<T>) -> io::Error {
        AllocError.into()
    }
}
