//! The usage and the help of a command.

use super::arg::Arg;
use super::parser::Parser;
use std::fmt::{self, Display, Write};

/// A parser is shown as the usage of its command. The alternate form has no options but those that are required or
/// given.
impl Display for Parser<'_, '_> {
    fn fmt(&self, f: &mut fmt::Formatter<'_>) -> fmt::Result {
        let command = self.command;
        if let Some(usage) = command.usage {
            return write!(f, "Usage: {usage}");
        }
        write!(f, "Usage: {}", self.shown_path())?;
        let given = if f.alternate() { self.given.as_slice() } else { &[] };
        if !f.alternate() && command.options().any(Arg::is_optional) {
            f.write_str(" [OPTIONS]")?;
        }
        for option in command.options().filter(|option| option.is_required) {
            write!(f, " {option}")?;
        }
        for (id, _) in given {
            if let Some(option) = command.options().find(|option| option.id == *id && !option.is_required) {
                write!(f, " {option}")?;
            }
        }
        for positional in command.positionals() {
            if given.iter().any(|(id, _)| *id == positional.id) {
                write!(f, " <{}>", positional.value_name)?;
            } else {
                write!(f, " {positional}")?;
            }
        }
        match command.has_subcommands() {
            true if command.is_subcommand_required => f.write_str(" <COMMAND>"),
            true if !f.alternate() => f.write_str(" [COMMAND]"),
            _ => Ok(()),
        }
    }
}

/// The help of the command of a parser.
pub(super) struct Help<'p>(pub(super) &'p Parser<'p, 'p>);

impl Display for Help<'_> {
    fn fmt(&self, f: &mut fmt::Formatter<'_>) -> fmt::Result {
        let command = self.0.command;
        if let Some(about) = command.about {
            write!(f, "{about}\n\n")?;
        }
        writeln!(f, "{}", self.0)?;
        write_section(f, "Commands", command.subcommands())?;
        write_section(f, "Arguments", command.positionals().map(|argument| (argument, argument.help)))?;
        write_section(f, "Options", command.options().map(|option| (option, option.help)))?;
        match command.after_help {
            Some(text) => write!(f, "\n{text}\n"),
            None => Ok(()),
        }
    }
}

/// Writes a list with a text beside each item, unless it is empty. All lines of the texts begin in one column.
fn write_section<'t, T: Display>(
    f: &mut fmt::Formatter<'_>,
    title: &str,
    items: impl Iterator<Item = (T, &'t str)> + Clone,
) -> fmt::Result {
    let Some(width) = items.clone().map(|(item, _)| width_of(&item)).max() else {
        return Ok(());
    };
    writeln!(f, "\n{title}:")?;
    for (item, text) in items {
        write!(f, "  {item:#}{:1$}", "", width - width_of(&item) + 2)?;
        for (place, line) in text.split('\n').enumerate() {
            if place > 0 {
                write!(f, "\n{:1$}", "", width + 4)?;
            }
            f.write_str(line)?;
        }
        writeln!(f)?;
    }
    Ok(())
}

/// Returns how many characters an item of a list has.
fn width_of(item: &impl Display) -> usize {
    struct Count(usize);
    impl Write for Count {
        fn write_str(&mut self, text: &str) -> fmt::Result {
            self.0 += text.chars().count();
            Ok(())
        }
    }
    let mut count = Count(0);
    write!(count, "{item:#}").map_or(0, |()| count.0)
}
