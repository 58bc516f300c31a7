//! Texts in memory, whose growth can fail.
use crate::crates::mapf_model::{Failed, Sink};
use crate::error::Error;
use std::fmt::{self, Write};

/// A text that is being made.
#[derive(Debug)]
pub(crate) struct Text {
    bytes: Vec<u8>,
    is_failed: bool,
}

impl Text {
    /// An empty text, which takes no memory yet.
    pub(crate) fn new() -> Text {
        Text { bytes: Vec::new(), is_failed: false }
    }

    /// Adds what `format_args!` gives.
    pub(crate) fn push(&mut self, parts: fmt::Arguments<'_>) -> Result<(), Error> {
        self.write_fmt(parts).map_err(|_| Error::Memory)
    }

    /// Adds bytes.
    pub(crate) fn push_bytes(&mut self, bytes: &[u8]) -> Result<(), Error> {
        if self.bytes.try_reserve(bytes.len()).is_err() {
            self.is_failed = true;
            return Err(Error::Memory);
        }
        self.bytes.extend_from_slice(bytes);
        Ok(())
    }

    /// The bytes of the text.
    pub(crate) fn into_bytes(self) -> Vec<u8> {
        self.bytes
    }
}

// An error is a request for memory that was refused.
impl Write for Text {
    fn write_str(&mut self, text: &str) -> fmt::Result {
        self.push_bytes(text.as_bytes()).map_err(|_| fmt::Error)
    }
}

impl Sink for Text {
    fn push(&mut self, bytes: &[u8]) -> Result<usize, Failed> {
        match self.push_bytes(bytes) {
            Ok(()) => Ok(bytes.len()),
            Err(_) => Err(Failed),
        }
    }

    fn failed(&self) -> bool {
        self.is_failed
    }
}

/// The list of what a closure gives of each item.
pub(crate) fn collected<T, U>(items: &[T], change: impl Fn(&T) -> Result<U, Error>) -> Result<Vec<U>, Error> {
    let mut list = Vec::new();
    list.try_reserve_exact(items.len()).map_err(|_| Error::Memory)?;
    for item in items {
        list.push(change(item)?);
    }
    Ok(list)
}
