//! The description of a command line: a command with its arguments and its subcommands.

use super::arg::{Arg, ArgAction};
use super::error::Error;
use super::matches::ArgMatches;
use super::parser::parse;
use crate::rattle_std::Vec;
use crate::rattle_std::alloc::{AllocError, Global};

/// The name of the subcommand that shows help.
pub(super) const HELP_NAME: &str = "help";

/// What the help says about the subcommand that shows help.
pub(super) const HELP_ABOUT: &str = "Print this message or the help of the given subcommand(s)";

/// The flag of each command that shows help.
static HELP: Arg<'static> = Arg::new(Global, "help").long("help").help("Print help").action(ArgAction::Help);

/// The flag of each command with a version that shows it.
static VERSION: Arg<'static> =
    Arg::new(Global, "version").long("version").help("Print version").action(ArgAction::Version);

/// A program, or a subcommand.
#[derive(Debug)]
pub struct Command<'a> {
    pub(super) name: &'a str,
    pub(super) version: Option<&'a str>,
    pub(super) about: Option<&'a str>,
    pub(super) after_help: Option<&'a str>,
    pub(super) usage: Option<&'a str>,
    pub(super) is_subcommand_required: bool,
    arguments: Vec<Arg<'a>>,
    subcommands: Vec<Command<'a>>,
}

impl<'a> Command<'a> {
    /// Makes a command without arguments and subcommands.
    pub fn new(_alloc: Global, name: &'a str) -> Command<'a> {
        Command {
            name,
            version: None,
            about: None,
            after_help: None,
            usage: None,
            is_subcommand_required: false,
            arguments: Vec::new(Global),
            subcommands: Vec::new(Global),
        }
    }

    /// Sets the version.
    pub fn version(mut self, version: &'a str) -> Command<'a> {
        self.version = Some(version);
        self
    }

    /// Sets the text that begins the help, and that stands beside a subcommand in the help of its command.
    pub fn about(mut self, text: &'a str) -> Command<'a> {
        self.about = Some(text);
        self
    }

    /// Sets the text that ends the help.
    pub fn after_help(mut self, text: &'a str) -> Command<'a> {
        self.after_help = Some(text);
        self
    }

    /// Sets the usage, in place of the one that is made of the arguments.
    pub fn override_usage(mut self, usage: &'a str) -> Command<'a> {
        self.usage = Some(usage);
        self
    }

    /// Sets whether it is an error to give no subcommand.
    pub fn subcommand_required(mut self, is_required: bool) -> Command<'a> {
        self.is_subcommand_required = is_required;
        self
    }

    /// Adds an argument. Positional ones are given in the order in which they are added. It is an error if memory is
    /// refused.
    pub fn arg(mut self, argument: Arg<'a>) -> Result<Command<'a>, AllocError> {
        self.arguments.push(argument)?;
        Ok(self)
    }

    /// Adds a subcommand. It is an error if memory is refused.
    pub fn subcommand(mut self, subcommand: Command<'a>) -> Result<Command<'a>, AllocError> {
        self.subcommands.push(subcommand)?;
        Ok(self)
    }

    /// Reads the words of a command line, of which the first is the path of the program. It is an error if they ask for
    /// the help or the version, if the command doesn't take them, or if memory is refused.
    pub fn try_get_matches_from<S: AsRef<str>>(self, words: &'a [S]) -> Result<ArgMatches<'a>, Error> {
        let mut texts = Vec::with_capacity(Global, words.len())?;
        for word in words {
            texts.push(word.as_ref())?;
        }
        parse(&self, &texts)
    }

    pub(super) fn positionals(&self) -> impl Iterator<Item = &Arg<'a>> + Clone {
        self.arguments.iter().filter(|argument| argument.long.is_none())
    }

    /// Returns the options and flags, with those that are there without being added.
    pub(super) fn options(&self) -> impl Iterator<Item = &Arg<'a>> + Clone {
        let added = self.arguments.iter().filter(|argument| argument.long.is_some());
        added.chain([&HELP]).chain(self.version.map(|_| &VERSION))
    }

    pub(super) fn has_subcommands(&self) -> bool {
        !self.subcommands.is_empty()
    }

    /// Returns a subcommand that was added.
    pub(super) fn subcommand_named(&self, name: &str) -> Option<&Command<'a>> {
        self.subcommands.iter().find(|subcommand| subcommand.name == name)
    }

    /// Returns the name of each subcommand and what the help says about it, also of the one that shows help.
    pub(super) fn subcommands(&self) -> impl Iterator<Item = (&'a str, &'a str)> + Clone {
        let added = self.subcommands.iter().map(|command| (command.name, command.about.unwrap_or("")));
        added.chain(self.has_subcommands().then_some((HELP_NAME, HELP_ABOUT)))
    }
}
