//! The runtime, without which a program reaches nothing outside of itself. It stands for Rattle's `HostRuntime`.
use super::alloc::Global;
use super::io::Stream;
use std::env;
use std::fs::File;
use std::io;
use std::os::fd::AsFd;
use std::sync::OnceLock;

/// Something by which files may be opened.
pub trait Files {}

/// Something by which the words of the command line may be read.
pub trait Env {}

/// Returns a word of the command line by its place, the program's name at 0. None behind the last one.
pub type Words = fn(usize) -> Option<&'static [u8]>;

/// The runtime of a process.
#[derive(Debug)]
pub struct HostRuntime {
    words: Words,
    stdin: Stream,
    stdout: Stream,
    stderr: Stream,
}

impl HostRuntime {
    /// Makes the runtime of a program with these words and with these files as its standard input, output and error
    /// stream. Each use of one that isn't there is an error.
    pub fn of(words: Words, files: [Option<File>; 3]) -> HostRuntime {
        let [stdin, stdout, stderr] = files.map(Stream::new);
        HostRuntime { words, stdin, stdout, stderr }
    }

    /// Makes the runtime of a program that Rust's own `main` began. The memory for the words can't be refused.
    pub fn of_process() -> HostRuntime {
        static WORDS: OnceLock<Vec<Vec<u8>>> = OnceLock::new();
        WORDS.get_or_init(|| env::args_os().map(|word| word.into_encoded_bytes()).collect());
        let files = [
            io::stdin().as_fd().try_clone_to_owned(),
            io::stdout().as_fd().try_clone_to_owned(),
            io::stderr().as_fd().try_clone_to_owned(),
        ];
        HostRuntime::of(|place| WORDS.get()?.get(place).map(Vec::as_slice), files.map(|file| file.ok().map(File::from)))
    }

    pub(super) fn word(&self, place: usize) -> Option<&'static [u8]> {
        (self.words)(place)
    }

    /// Returns the allocator.
    pub fn alloc(&self) -> Global {
        Global
    }

    /// Returns the standard input.
    pub fn stdin(&self) -> &Stream {
        &self.stdin
    }

    /// Returns the standard output.
    pub fn stdout(&self) -> &Stream {
        &self.stdout
    }

    /// Returns the standard error stream.
    pub fn stderr(&self) -> &Stream {
        &self.stderr
    }
}

impl Files for HostRuntime {}

impl Env for HostRuntime {}
