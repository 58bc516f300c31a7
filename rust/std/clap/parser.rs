//! Reads the words of a command line.

use super::arg::{Arg, ArgAction, NumberParser};
use super::command::{Command, HELP_NAME};
use super::endings::{end, refuse};
use super::error::{Error, ErrorKind};
use super::matches::ArgMatches;
use crate::rattle_std::alloc::{AllocError, Global};
use crate::rattle_std::{Box, String, Vec, format_in};

/// Reads words, of which the first is the path of the program.
pub(super) fn parse<'a>(command: &Command<'a>, words: &[&'a str]) -> Result<ArgMatches<'a>, Error> {
    let (program, words) = words.split_first().unwrap_or((&"", &[]));
    let file_name = program.trim_end_matches('/').rsplit('/').next();
    let path = String::from_str(Global, file_name.filter(|name| *name != "..").unwrap_or(""))?;
    Parser::new(command, path).parse(words)
}

/// Reads the words behind the name of one command.
pub(super) struct Parser<'c, 'a> {
    pub(super) command: &'c Command<'a>,
    /// The names that lead to the command, such as `git remote add`.
    path: String,
    /// The names and values of the arguments that were read.
    pub(super) given: Vec<(&'a str, &'a str)>,
    /// The argument that was met last, and its value, which an option lacks at first. It is read when the next argument
    /// is met.
    pending: Option<(&'c Arg<'a>, Option<&'a str>)>,
    /// How many positional arguments were met.
    positionals: usize,
    /// Whether the word `--` was met, behind which all words are positional arguments.
    pub(super) is_escaped: bool,
}

impl<'c, 'a> Parser<'c, 'a> {
    pub(super) fn new(command: &'c Command<'a>, path: String) -> Parser<'c, 'a> {
        Parser { command, path, given: Vec::new(Global), pending: None, positionals: 0, is_escaped: false }
    }

    /// Returns the names that lead to a subcommand.
    pub(super) fn path_to(&self, subcommand: &str) -> Result<String, AllocError> {
        let separator = if self.path.is_empty() { "" } else { " " };
        format_in!(Global; "{}{separator}{subcommand}", self.path)
    }

    pub(super) fn shown_path(&self) -> &str {
        if self.path.is_empty() { self.command.name } else { &self.path }
    }

    fn parse(mut self, mut words: &[&'a str]) -> Result<ArgMatches<'a>, Error> {
        let mut subcommand = None;
        while let Some((&word, rest)) = words.split_first() {
            if let Some(named) = self.subcommand_at(word) {
                let matches = Parser::new(named, self.path_to(word)?).parse(rest)?;
                subcommand = Some((word, Box::new(Global, matches)?));
                break;
            }
            self.read(word, rest)?;
            words = rest;
        }
        self.finish_pending()?;
        if self.command.is_subcommand_required && subcommand.is_none() {
            self.refuse_no_subcommand()?;
        }
        self.check_required()?;
        Ok(ArgMatches { values: self.given, subcommand })
    }

    /// Returns the subcommand that a word names, if it stands where a subcommand may.
    fn subcommand_at(&self, word: &str) -> Option<&'c Command<'a>> {
        let is_value = self.is_escaped || matches!(self.pending, Some((_, None)));
        self.command.subcommand_named(word).filter(|_| !is_value)
    }

    /// Reads a word that names no subcommand. The rest of the words is for the help and for tips.
    fn read(&mut self, word: &'a str, rest: &[&str]) -> Result<(), Error> {
        if self.is_escaped {
            self.read_positional(word)
        } else if word == "--" {
            self.is_escaped = true;
            Ok(())
        } else if let Some(text) = word.strip_prefix("--") {
            self.read_long(text, rest)
        } else if let Some(short) = word.strip_prefix('-').and_then(|text| text.chars().next()) {
            self.read_short(short)
        } else if let Some((_, value @ None)) = &mut self.pending {
            *value = Some(word);
            Ok(())
        } else if word == HELP_NAME && self.command.has_subcommands() {
            self.show_help(rest)
        } else {
            self.read_positional(word)
        }
    }

    fn read_positional(&mut self, word: &'a str) -> Result<(), Error> {
        let Some(argument) = self.command.positionals().nth(self.positionals) else {
            return self.refuse_word(word);
        };
        self.finish_pending()?;
        self.positionals += 1;
        self.pending = Some((argument, Some(word)));
        Ok(())
    }

    fn read_long(&mut self, text: &'a str, rest: &[&str]) -> Result<(), Error> {
        let (name, value) = match text.split_once('=') {
            Some((name, value)) => (name, Some(value)),
            None => (text, None),
        };
        let Some(option) = self.command.options().find(|option| option.long == Some(name)) else {
            return self.refuse_long(name, rest);
        };
        match (option.action, value) {
            (ArgAction::Set, _) => {
                self.finish_pending()?;
                self.pending = Some((option, value));
                // A value in the same word is read at once.
                value.map_or(Ok(()), |_| self.finish_pending())
            }
            (_, None) => self.read_flag(option),
            (_, Some(value)) => {
                self.count_as_given(option)?;
                refuse(format_args!(
                    "unexpected value '{value}' for '{option}' found; no more were expected\n\n{self:#}"
                ))
            }
        }
    }

    /// Reads a word such as `-h`. What is behind the name doesn't matter, since each flag with a short name ends the
    /// parse.
    fn read_short(&mut self, name: char) -> Result<(), Error> {
        match self.command.options().find(|option| option.short() == Some(name)) {
            Some(flag) => self.read_flag(flag),
            None => {
                let tip = self.tip_on_value(format_args!("-{name}"))?;
                refuse(format_args!("unexpected argument '-{name}' found{tip}\n\n{self}"))
            }
        }
    }

    fn read_flag(&mut self, flag: &Arg<'a>) -> Result<(), Error> {
        self.finish_pending()?;
        match flag.action {
            ArgAction::Help => self.show_help(&[]),
            ArgAction::Version => {
                let (name, version) = (self.command.name, self.command.version.unwrap_or(""));
                end(ErrorKind::DisplayVersion, format_args!("{name} {version}\n"))
            }
            ArgAction::Set | ArgAction::SetTrue => self.keep(flag, "true"),
        }
    }

    /// Reads the argument that was met last.
    pub(super) fn finish_pending(&mut self) -> Result<(), Error> {
        match self.pending.take() {
            None => Ok(()),
            Some((argument, Some(value))) => self.keep(argument, value),
            Some((option, None)) => refuse(format_args!("a value is required for '{option}' but none was supplied")),
        }
    }

    /// Keeps the value of an argument. The usage of a later error shows the argument also if the value is refused, but
    /// not if there was one before.
    fn keep(&mut self, argument: &Arg<'a>, value: &'a str) -> Result<(), Error> {
        if self.is_given(argument) {
            self.given.retain(|(id, _)| *id != argument.id);
            return refuse(format_args!("the argument '{argument}' cannot be used multiple times\n\n{self}"));
        }
        self.given.push((argument.id, value))?;
        let Some(NumberParser(range)) = &argument.numbers else {
            return Ok(());
        };
        match value.parse::<i64>() {
            Ok(number) if range.contains(&number) => Ok(()),
            Ok(number) => {
                refuse(format_args!("invalid value '{value}' for '{argument}': {number} is not in {range:?}"))
            }
            Err(fault) => refuse(format_args!("invalid value '{value}' for '{argument}': {fault}")),
        }
    }

    pub(super) fn is_given(&self, argument: &Arg<'_>) -> bool {
        self.given.iter().any(|(id, _)| *id == argument.id)
    }
}
