//! What the words of a command line gave.

use crate::rattle_std::{Box, Vec};

/// The values of a command's arguments, and those of the subcommand that was given.
#[derive(Debug)]
pub struct ArgMatches<'a> {
    /// The name and the value of each argument that was given.
    pub(super) values: Vec<(&'a str, &'a str)>,
    pub(super) subcommand: Option<(&'a str, Box<ArgMatches<'a>>)>,
}

impl<'a> ArgMatches<'a> {
    /// Returns the value of an argument as it was given. That of a flag is `true`.
    pub fn get_str(&self, id: &str) -> Option<&'a str> {
        let (_, value) = self.values.iter().find(|(name, _)| *name == id)?;
        Some(value)
    }

    /// Returns the value of an argument as a number, if it was given and is one of this type.
    pub fn get_one<T: TryFrom<i64>>(&self, id: &str) -> Option<T> {
        let number: i64 = self.get_str(id)?.parse().ok()?;
        T::try_from(number).ok()
    }

    /// Returns the name of the subcommand that was given, and its matches.
    pub fn subcommand(&self) -> Option<(&'a str, &ArgMatches<'a>)> {
        self.subcommand.as_ref().map(|(name, matches)| (*name, &**matches))
    }
}
