//! A text whose growth can be refused. It stands for `String` of Rattle's std.
//!
//! Rust's own ends the process where memory is refused, and so do its `format!` and `to_string`. Here each method that
//! may grow the text calls Rust's `try_reserve` first.
#[cfg(feature = "cli")]
use super::alloc::AllocFailed;
use super::alloc::{AllocError, Global};
use std::fmt::{self, Write};
use std::ops::Deref;
use std::string;

/// Rust's string, whose growth is an error if memory is refused.
#[derive(PartialEq, Eq, PartialOrd, Ord, Hash)]
pub struct String(string::String);

impl String {
    /// Makes an empty text, which has no memory.
    #[inline]
    pub fn new(_alloc: Global) -> String {
        String(string::String::new())
    }

    /// Makes a copy of a text.
    pub fn from_str(alloc: Global, text: &str) -> Result<String, AllocError> {
        let mut made = String::new(alloc);
        made.push_str(text)?;
        Ok(made)
    }

    /// Makes the text that `format_args!` describes.
    pub fn formatted(alloc: Global, parts: fmt::Arguments<'_>) -> Result<String, AllocError> {
        let mut made = String::new(alloc);
        made.write_fmt(parts)?;
        Ok(made)
    }

    /// Adds a character. If memory is refused, the text is as it was.
    #[cfg(feature = "cli")]
    #[inline]
    pub fn push(&mut self, value: char) -> Result<(), AllocFailed<char>> {
        if self.0.try_reserve(value.len_utf8()).is_err() {
            return Err(AllocFailed { value });
        }
        self.0.push(value);
        Ok(())
    }

    /// Adds a text. If memory is refused, this text is as it was.
    #[inline]
    pub fn push_str(&mut self, text: &str) -> Result<(), AllocError> {
        self.0.try_reserve(text.len())?;
        self.0.push_str(text);
        Ok(())
    }

    /// Adds what `format_args!` describes; the macro `write!` calls it. If memory is refused, a part may have been added.
    pub fn write_fmt(&mut self, parts: fmt::Arguments<'_>) -> Result<(), AllocError> {
        Write::write_fmt(self, parts).map_err(|fmt::Error| AllocError)
    }

    /// Returns the text.
    #[cfg_attr(not(feature = "cli"), allow(dead_code))]
    #[inline]
    pub fn as_str(&self) -> &str {
        &self.0
    }
}

/// An error here is a request for memory that was refused.
impl Write for String {
    #[inline]
    fn write_str(&mut self, text: &str) -> fmt::Result {
        self.push_str(text).map_err(|AllocError| fmt::Error)
    }
}

impl Deref for String {
    type Target = str;

    #[inline]
    fn deref(&self) -> &str {
        &self.0
    }
}

impl AsRef<str> for String {
    #[inline]
    fn as_ref(&self) -> &str {
        &self.0
    }
}

impl fmt::Display for String {
    fn fmt(&self, f: &mut fmt::Formatter<'_>) -> fmt::Result {
        self.0.fmt(f)
    }
}

impl fmt::Debug for String {
    fn fmt(&self, f: &mut fmt::Formatter<'_>) -> fmt::Result {
        self.0.fmt(f)
    }
}

/// What is shown as text. It stands for Rattle's `ToString`, whose method takes the allocator.
pub trait ToStringIn {
    /// Makes the text.
    fn to_string_in(&self, alloc: Global) -> Result<String, AllocError>;
}

impl<T: fmt::Display + ?Sized> ToStringIn for T {
    fn to_string_in(&self, alloc: Global) -> Result<String, AllocError> {
        String::formatted(alloc, format_args!("{self}"))
    }
}
