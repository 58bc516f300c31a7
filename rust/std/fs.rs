//! Files. They stand for Rattle's `std::fs`, whose functions take the runtime.
//!
//! Rust's own take memory for a path of 384 bytes or more, and end the process where it is refused; a shorter one has
//! room on the stack.
use super::rt::Files;
use std::fs;
use std::io;
use std::path::{Path, PathBuf};

pub use std::fs::{File, Metadata};

/// Opens a file to read it.
pub fn open(_rt: &impl Files, path: impl AsRef<Path>) -> io::Result<File> {
    File::open(path)
}

/// Returns what the system knows of a file.
pub fn metadata(_rt: &impl Files, path: impl AsRef<Path>) -> io::Result<Metadata> {
    fs::metadata(path)
}

/// Returns the absolute path of a file, in which no link is left. The memory for it can't be refused.
pub fn canonicalize(_rt: &impl Files, path: impl AsRef<Path>) -> io::Result<PathBuf> {
    fs::canonicalize(path)
}

/// Removes a file.
pub fn remove_file(_rt: &impl Files, path: impl AsRef<Path>) -> io::Result<()> {
    fs::remove_file(path)
}

/// How a file is opened.
#[derive(Clone, Debug)]
pub struct OpenOptions(fs::OpenOptions);

impl OpenOptions {
    /// Makes the options with which no file is opened yet.
    #[allow(clippy::new_without_default)]
    pub fn new() -> OpenOptions {
        OpenOptions(fs::OpenOptions::new())
    }

    /// Sets whether the file is opened to be written.
    pub fn write(mut self, is_written: bool) -> OpenOptions {
        self.0.write(is_written);
        self
    }

    /// Sets whether the file is made if there is none.
    pub fn create(mut self, is_made: bool) -> OpenOptions {
        self.0.create(is_made);
        self
    }

    /// Opens a file.
    pub fn open(&self, _rt: &impl Files, path: impl AsRef<Path>) -> io::Result<File> {
        self.0.open(path)
    }
}
