//! How a parse ends without matches: with the help, the version, or a usage error, in which a tip may stand.

use super::arg::Arg;
use super::command::{Command, HELP_ABOUT, HELP_NAME};
use super::error::{Error, ErrorKind};
use super::help::Help;
use super::parser::Parser;
use super::similarity::similar_words;
use crate::rattle_std::alloc::{AllocError, Global};
use crate::rattle_std::{String, format_in};
use std::fmt;

/// Ends a parse with a text.
pub(super) fn end(kind: ErrorKind, text: fmt::Arguments<'_>) -> Result<(), Error> {
    Err(Error::new(kind, text))
}

/// Ends a parse with a usage error.
pub(super) fn refuse(message: fmt::Arguments<'_>) -> Result<(), Error> {
    let hint = "For more information, try '--help'.";
    end(ErrorKind::Usage, format_args!("error: {message}\n\n{hint}\n"))
}

impl<'a> Parser<'_, 'a> {
    /// Shows the help on the subcommand to which these names lead.
    pub(super) fn show_help(&self, names: &[&str]) -> Result<(), Error> {
        let Some((name, rest)) = names.split_first() else {
            return end(ErrorKind::DisplayHelp, format_args!("{}", Help(self)));
        };
        match self.command.subcommand_named(name) {
            Some(named) => Parser::new(named, self.path_to(name)?).show_help(rest),
            None if *name == HELP_NAME && self.command.has_subcommands() => self.show_help_on_help(rest),
            None => refuse(format_args!("unrecognized subcommand '{name}'\n\n{self}")),
        }
    }

    /// Shows the help on the subcommand `help`, which has no help itself.
    fn show_help_on_help(&self, names: &[&str]) -> Result<(), Error> {
        let usage = format_in!(Global; "Usage: {} [COMMAND]...\n", self.path_to(HELP_NAME)?)?;
        if let Some(name) = names.first() {
            let message = format_in!(Global; "unrecognized subcommand '{name}'")?;
            return end(ErrorKind::Usage, format_args!("error: {message}\n\n{usage}"));
        }
        let arguments = "Arguments:\n  [COMMAND]...  Print help for the subcommand(s)\n";
        let help = format_in!(Global; "{HELP_ABOUT}\n\n{usage}\n{arguments}")?;
        end(ErrorKind::DisplayHelp, format_args!("{help}"))
    }

    /// Refuses an unknown option, whatever is wrong with the argument before it.
    pub(super) fn refuse_long(&mut self, name: &str, rest: &[&str]) -> Result<(), Error> {
        match self.finish_pending() {
            Err(error) if error.kind() == ErrorKind::OutOfMemory => return Err(error),
            Ok(()) | Err(_) => {}
        }
        let tip = self.tip_on_option(name, rest)?;
        if self.given.is_empty() {
            refuse(format_args!("unexpected argument '--{name}' found{tip}\n\n{self}"))
        } else {
            refuse(format_args!("unexpected argument '--{name}' found{tip}\n\n{self:#}"))
        }
    }

    /// Refuses a word that is neither an argument nor a subcommand in its place.
    pub(super) fn refuse_word(&self, word: &str) -> Result<(), Error> {
        if !self.command.has_subcommands() {
            return refuse(format_args!("unexpected argument '{word}' found\n\n{self}"));
        }
        if self.is_escaped && self.command.subcommands().any(|(name, _)| name == word) {
            return refuse(format_args!(
                "unexpected argument '{word}' found\n\n  \
                 tip: subcommand '{word}' exists; to use it, remove the '--' before it\n\n{self}"
            ));
        }
        let tip = self.tip_on_subcommand(word)?;
        refuse(format_args!("unrecognized subcommand '{word}'{tip}\n\n{self}"))
    }

    /// Refuses words without a subcommand.
    pub(super) fn refuse_no_subcommand(&self) -> Result<(), Error> {
        let path = self.shown_path();
        let names = joined(self.command.subcommands().map(|(name, _)| name), ", ")?;
        refuse(format_args!(
            "'{path}' requires a subcommand but one was not provided\n  [subcommands: {names}]\n\n{self}"
        ))
    }

    /// Refuses words without all required arguments.
    pub(super) fn check_required(&self) -> Result<(), Error> {
        let arguments = self.command.options().chain(self.command.positionals());
        let mut missing = String::new(Global);
        for argument in arguments.filter(|argument| argument.is_required && !self.is_given(argument)) {
            missing.write_fmt(format_args!("\n  {argument}"))?;
        }
        if missing.is_empty() {
            return Ok(());
        }
        refuse(format_args!("the following required arguments were not provided:{missing}\n\n{self:#}"))
    }

    /// Has the usage of an error show an option that isn't given.
    pub(super) fn count_as_given(&mut self, option: &Arg<'a>) -> Result<(), AllocError> {
        if !self.is_given(option) {
            self.given.push((option.id, ""))?;
        }
        Ok(())
    }

    /// Returns the tip on how a word that begins like an option is given as a value, if the command takes values.
    pub(super) fn tip_on_value(&self, word: fmt::Arguments<'_>) -> Result<String, AllocError> {
        match self.command.positionals().next() {
            Some(_) => format_in!(Global; "\n\n  tip: to pass '{word}' as a value, use '-- {word}'"),
            None => Ok(String::new(Global)),
        }
    }

    /// Returns the tip on an unknown option, if there is one: a similar option of the command, which the usage then
    /// shows, or of a subcommand among the rest of the words, or how such a word is given as a value.
    fn tip_on_option(&mut self, name: &str, rest: &[&str]) -> Result<String, AllocError> {
        if let Some((long, option)) = similar_option(self.command, name)? {
            self.count_as_given(option)?;
            return format_in!(Global; "\n\n  tip: a similar argument exists: '--{long}'");
        }
        for subcommand in rest.iter().filter_map(|word| self.command.subcommand_named(word)) {
            if let Some((long, _)) = similar_option(subcommand, name)? {
                return format_in!(Global; "\n\n  tip: '{} --{long}' exists", subcommand.name);
            }
        }
        self.tip_on_value(format_args!("--{name}"))
    }

    /// Returns the tip on which subcommands an unknown name may stand for, if there are any.
    fn tip_on_subcommand(&self, name: &str) -> Result<String, AllocError> {
        let similar = similar_words(name, self.command.subcommands())?;
        let names = joined(similar.iter().map(|(_, name, _)| *name), "', '")?;
        match similar.len() {
            0 => Ok(names),
            1 => format_in!(Global; "\n\n  tip: a similar subcommand exists: '{names}'"),
            _ => format_in!(Global; "\n\n  tip: some similar subcommands exist: '{names}'"),
        }
    }
}

/// Returns the option of a command whose name is most similar to this one, behind its name.
fn similar_option<'c, 'a>(command: &'c Command<'a>, name: &str) -> Result<Option<(&'a str, &'c Arg<'a>)>, AllocError> {
    let named = command.options().filter_map(|option| Some((option.long?, option)));
    let most_similar = similar_words(name, named)?.pop();
    Ok(most_similar.map(|(_, long, option)| (long, option)))
}

/// Returns the words in one text, with a separator between them.
fn joined<'w>(words: impl Iterator<Item = &'w str>, separator: &str) -> Result<String, AllocError> {
    let mut text = String::new(Global);
    for word in words {
        text.push_str(if text.is_empty() { "" } else { separator })?;
        text.push_str(word)?;
    }
    Ok(text)
}
