//! The program `mapf`. C's `main` stands here, for two reasons. Rust's own opens standard streams that are closed, and
//! then a program can't tell that its output goes nowhere; and Rust's `env::args` ends the process where memory for the
//! words is refused.
#![no_main]
#![warn(clippy::undocumented_unsafe_blocks)]

use mapf::program::{HostRuntime, main_with};
use std::ffi::{CStr, c_char, c_int};
use std::fs::File;
use std::os::fd::FromRawFd;
use std::slice;
use std::sync::OnceLock;

unsafe extern "C" {
    fn signal(number: c_int, handler: usize) -> usize;
}

const SIGPIPE: c_int = 13;
const IGNORED: usize = 1;

/// The words of the command line. The system keeps them as long as the process runs, and nothing changes them.
struct Words(&'static [*const c_char]);

// SAFETY: what the pointers lead to is only read.
unsafe impl Send for Words {}

// SAFETY: what the pointers lead to is only read.
unsafe impl Sync for Words {}

static WORDS: OnceLock<Words> = OnceLock::new();

/// The word in this place, of which the first is the name of the program.
fn word(place: usize) -> Option<&'static [u8]> {
    let word = WORDS.get()?.0.get(place)?;
    // SAFETY: each of the words that the system counts is a text with a 0 at its end.
    Some(unsafe { CStr::from_ptr(*word) }.to_bytes())
}

#[unsafe(no_mangle)]
extern "C" fn main(count: c_int, words: *const *const c_char) -> c_int {
    // A pipe that nobody reads is an error of the write, as in all programs in Rust.
    // SAFETY: a signal may be ignored at any time.
    unsafe { signal(SIGPIPE, IGNORED) };
    // SAFETY: the system gives so many words.
    WORDS.get_or_init(|| Words(unsafe { slice::from_raw_parts(words, usize::try_from(count).unwrap_or(0)) }));
    // SAFETY: nothing else has these files. One that isn't open fails at each call.
    let streams = [0, 1, 2].map(|number| Some(unsafe { File::from_raw_fd(number) }));
    main_with(HostRuntime::of(word, streams)).code().into()
}
