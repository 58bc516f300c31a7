//! The words of the command line. They stand for Rattle's `std::env`.
//!
//! Rust's own copies all of them to the heap when they are asked for, and ends the process where memory is refused. Here
//! they come from the runtime, one by one.
use super::alloc::AllocError;
use super::rt::HostRuntime;
use super::{String, Vec};
use std::io;
use std::vec;

/// Returns the words of the command line, the program's name first. It is an error if one isn't UTF-8 text, or if memory
/// is refused.
pub fn args(rt: &HostRuntime) -> io::Result<vec::IntoIter<String>> {
    let mut words = Vec::new(rt.alloc());
    while let Some(word) = rt.word(words.len()) {
        let text = str::from_utf8(word).map_err(|_| io::ErrorKind::InvalidData)?;
        words.push(String::from_str(rt.alloc(), text)?).map_err(AllocError::from)?;
    }
    Ok(words.into_iter())
}
