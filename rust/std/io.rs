//! The standard streams. They stand for those of Rattle's `std::io`.
//!
//! Rust's own take memory for a buffer when they are first used, and end the process where it is refused. They also take
//! a closed stream for one that accepts whatever is written. Those here have no buffer: each call is one of the system,
//! and returns its error.
use super::rt::HostRuntime;
use std::fmt;
use std::fs::File;
use std::io::{self, Read, Write};
use std::mem::ManuallyDrop;

/// A standard stream. It is never closed.
#[derive(Debug)]
pub struct Stream(Option<ManuallyDrop<File>>);

impl Stream {
    /// Makes the stream of an open file, or one of which each use is an error.
    pub(super) fn new(file: Option<File>) -> Stream {
        Stream(file.map(ManuallyDrop::new))
    }

    fn file(&self) -> io::Result<&File> {
        self.0.as_deref().ok_or(io::ErrorKind::NotFound.into())
    }

    /// Returns whether the stream is a terminal.
    pub fn is_terminal(&self) -> bool {
        self.file().is_ok_and(io::IsTerminal::is_terminal)
    }
}

/// The name of the trait in Rattle that has `is_terminal`, which is a method of the streams themselves here.
pub trait IsTerminal {}

impl Read for &Stream {
    fn read(&mut self, bytes: &mut [u8]) -> io::Result<usize> {
        self.file()?.read(bytes)
    }
}

impl Write for &Stream {
    fn write(&mut self, bytes: &[u8]) -> io::Result<usize> {
        self.file()?.write(bytes)
    }

    fn flush(&mut self) -> io::Result<()> {
        self.file()?.flush()
    }
}

/// Prints a line on standard output, for the macro `println_rt`.
pub fn print_line(rt: &HostRuntime, parts: fmt::Arguments<'_>) -> io::Result<()> {
    let mut out = rt.stdout();
    writeln!(out, "{parts}")
}
