//! A parser of command lines: the part of the crate `clap` that the program uses, with clap's names, texts and layout.
//!
//! A [`Command`] is told its arguments or its subcommands, and reads words by [`Command::try_get_matches_from`]. It
//! gives [`ArgMatches`], which have the values by the names of the arguments, or an [`Error`], whose text is to be
//! printed: a usage error, or the help or the version that was asked for.
//!
//! Every command has the flags `-h` and `--help`, the program with a version also `-V` and `--version`, and a command
//! with subcommands also the subcommand `help`. In other ways than clap's:
//!
//! - `new` takes the allocator, and a method that adds something returns a `Result`. A request for memory that is
//!   refused while words are read gives an error of the kind [`OutOfMemory`](error::ErrorKind::OutOfMemory).
//! - Texts are borrowed, and so are words and values.
//! - A value is any text, or a number of the type `u32`. An argument has one value or none, and no short name.
//! - All usage errors have one kind.
//! - A command has required arguments or subcommands, but not both, and only the program has a version.
//! - Help stands beside what it describes, however wide that is.

mod arg;
mod command;
mod endings;
pub mod error;
mod help;
mod matches;
mod parser;
mod similarity;

pub use arg::{Arg, ArgAction, NumberParser};
pub use command::Command;
pub use error::Error;
pub use matches::ArgMatches;

/// Returns the parser of values of this type, for [`Arg::value_parser`].
macro_rules! value_parser {
    (u32) => {
        $crate::rattle_std::clap::NumberParser(0..=i64::from(u32::MAX))
    };
}

#[allow(unused_imports)]
pub(crate) use value_parser;
