//! The arguments of a command: positional ones, options with a value, and flags without one.

use crate::rattle_std::alloc::Global;
use std::fmt;
use std::ops::RangeInclusive;

/// What happens when an argument is met.
#[derive(Clone, Copy, Debug, PartialEq, Eq)]
pub enum ArgAction {
    /// Its value is kept.
    Set,
    /// It has no value, and `true` is kept.
    SetTrue,
    /// The parse ends with the help.
    Help,
    /// The parse ends with the version.
    Version,
}

/// A parser of whole numbers, which accepts a range of them. The macro `value_parser` makes one.
#[derive(Clone, Debug)]
pub struct NumberParser(pub(crate) RangeInclusive<i64>);

impl NumberParser {
    /// Accepts the numbers of this range alone.
    pub fn range(self, range: RangeInclusive<i64>) -> NumberParser {
        let NumberParser(all) = self;
        NumberParser(*range.start().max(all.start())..=*range.end().min(all.end()))
    }
}

/// An argument of a command: a positional one, unless [`long`](Arg::long) makes an option or a flag of it.
///
/// It is shown as `<NAME>`, as `[NAME]` if it may be left out, as `--name <VALUE>` or as `--name`. In the alternate
/// form the short name of an option stands before it, or as much space.
#[derive(Clone, Debug)]
pub struct Arg<'a> {
    pub(super) id: &'a str,
    pub(super) long: Option<&'a str>,
    pub(super) value_name: &'a str,
    pub(super) help: &'a str,
    pub(super) action: ArgAction,
    pub(super) numbers: Option<NumberParser>,
    pub(super) is_required: bool,
}

impl<'a> Arg<'a> {
    /// Makes a positional argument that may be left out and takes any text. The matches have its value by its `id`.
    pub const fn new(_alloc: Global, id: &'a str) -> Arg<'a> {
        let (long, value_name, help, action) = (None, id, "", ArgAction::Set);
        Arg { id, long, value_name, help, action, numbers: None, is_required: false }
    }

    /// Makes an option of it, or a flag if it has no value, which is given as `--name`.
    pub const fn long(mut self, name: &'a str) -> Arg<'a> {
        self.long = Some(name);
        self
    }

    /// Sets the name that stands for its value where it is shown, in place of its `id`.
    pub const fn value_name(mut self, name: &'a str) -> Arg<'a> {
        self.value_name = name;
        self
    }

    /// Sets what the help says about it, in one line or several.
    pub const fn help(mut self, text: &'a str) -> Arg<'a> {
        self.help = text;
        self
    }

    /// Sets whether it is an error to leave it out.
    pub const fn required(mut self, is_required: bool) -> Arg<'a> {
        self.is_required = is_required;
        self
    }

    /// Sets what happens when it is met, in place of [`ArgAction::Set`].
    pub const fn action(mut self, action: ArgAction) -> Arg<'a> {
        self.action = action;
        self
    }

    /// Sets which values are accepted, in place of any text.
    pub fn value_parser(mut self, numbers: NumberParser) -> Arg<'a> {
        self.numbers = Some(numbers);
        self
    }

    /// Returns whether the word `[OPTIONS]` stands for it in a usage. The built-in flags aren't mentioned there.
    pub(super) fn is_optional(&self) -> bool {
        !self.is_required && self.short().is_none()
    }

    pub(super) fn short(&self) -> Option<char> {
        match self.action {
            ArgAction::Help => Some('h'),
            ArgAction::Version => Some('V'),
            ArgAction::Set | ArgAction::SetTrue => None,
        }
    }
}

impl fmt::Display for Arg<'_> {
    fn fmt(&self, f: &mut fmt::Formatter<'_>) -> fmt::Result {
        let value = self.value_name;
        let Some(long) = self.long else {
            return if self.is_required { write!(f, "<{value}>") } else { write!(f, "[{value}]") };
        };
        match self.short() {
            Some(short) if f.alternate() => write!(f, "-{short}, ")?,
            None if f.alternate() => f.write_str("    ")?,
            _ => {}
        }
        match self.action {
            ArgAction::Set => write!(f, "--{long} <{value}>"),
            _ => write!(f, "--{long}"),
        }
    }
}
