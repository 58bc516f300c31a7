//! Why the words of a command line give no matches.

use crate::rattle_std::alloc::{AllocError, AllocFailed, Global};
use crate::rattle_std::{String, format_in};
use std::fmt;

/// What an error is about.
#[derive(Clone, Copy, Debug, PartialEq, Eq)]
pub enum ErrorKind {
    /// The words are a usage error.
    Usage,
    /// The words ask for the help, which is the text of the error.
    DisplayHelp,
    /// The words ask for the version, which is the text of the error.
    DisplayVersion,
    /// A request for memory was refused.
    OutOfMemory,
}

/// What there is in place of matches. It is shown as the whole text that is to be printed.
#[derive(Debug)]
pub struct Error {
    kind: ErrorKind,
    text: String,
}

impl Error {
    pub(super) fn new(kind: ErrorKind, text: fmt::Arguments<'_>) -> Error {
        match format_in!(Global; "{text}") {
            Ok(text) => Error { kind, text },
            Err(refused) => Error::from(refused),
        }
    }

    /// Returns what the error is about.
    pub fn kind(&self) -> ErrorKind {
        self.kind
    }

    /// Returns whether the text belongs on standard error, and not on standard output.
    pub fn use_stderr(&self) -> bool {
        !matches!(self.kind, ErrorKind::DisplayHelp | ErrorKind::DisplayVersion)
    }
}

impl fmt::Display for Error {
    fn fmt(&self, f: &mut fmt::Formatter<'_>) -> fmt::Result {
        match self.kind {
            ErrorKind::OutOfMemory => writeln!(f, "error: {AllocError}"),
            _ => f.write_str(&self.text),
        }
    }
}

impl std::error::Error for Error {}

impl From<AllocError> for Error {
    fn from(_refused: AllocError) -> Error {
        Error { kind: ErrorKind::OutOfMemory, text: String::new(Global) }
    }
}

impl<T> From<AllocFailed<T>> for Error {
    fn from(_refused: AllocFailed<T>) -> Error {
        Error::from(AllocError)
    }
}
