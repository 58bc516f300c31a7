//! Imports. Those from other libraries are written anew, since what stands for the items of one may be in several
//! places. For all others the rule of paths is enough.
use super::libraries::{Item, is_library, item_of};
use super::modules::by_hand;
use super::refused::Refused;
use super::tokens::Kind;
use super::translator::Translator;

/// How many braces of an import may be open at a place.
const DEEPEST: usize = 4;

/// An item that an import names, and the name that it gets there if it is another.
struct Import<'a> {
    path: String,
    name: Option<&'a str>,
}

impl<'a> Translator<'a> {
    /// Applies the rule of an import.
    pub(super) fn import(&mut self, at: usize) -> Result<usize, Refused> {
        let first = self.code.word(at + 1);
        if by_hand(self.surroundings.own, first) == Some("") {
            return self.import_of_nothing(at);
        }
        if !is_library(first) {
            return Ok(at + 1);
        }
        let end = self.code.require(at, ";")?;
        if matches!(self.code.before(at), "pub" | ")") {
            return self.refuse(at, "pub use: known only for crates of the repository");
        }
        let mut places = Vec::new();
        for Import { path, name } in self.imports(at + 1, end)? {
            match item_of(&path) {
                Some(Item::At(place)) => places.push(place + &name.map_or(String::new(), |name| format!(" as {name}"))),
                Some(Item::Gone) => {}
                None => return self.refuse(at, format!("{path}: no item that is known here")),
            }
        }
        match places.as_slice() {
            [] => {
                self.check_no_attribute(at)?;
                self.code.remove_with_blanks(at, end);
            }
            [place] => self.code.replace(at, end, format!("use {place};")),
            _ => self.code.replace(at, end, format!("use {{{}}};", places.join(", "))),
        }
        Ok(end + 1)
    }

    /// Removes an import from a module for which nothing stands.
    fn import_of_nothing(&mut self, at: usize) -> Result<usize, Refused> {
        let first = if self.code.before(at) == "pub" { at - 1 } else { at };
        self.check_no_attribute(first)?;
        let end = self.code.require(at, ";")?;
        self.code.remove_with_comments(first, end);
        Ok(end + 1)
    }

    /// The items that an import names, which begins at `first` and ends with the `;` at `end`.
    fn imports(&self, first: usize, end: usize) -> Result<Vec<Import<'a>>, Refused> {
        let mut found = Vec::new();
        // What stands before each brace that is open, below it nothing; and the path and its new name so far.
        let mut open = vec![String::new()];
        let (mut path, mut name) = (String::new(), None);
        for at in first..=end {
            let outer = open.last().map_or("", String::as_str);
            let may_go_on = path.is_empty() || path.ends_with("::");
            match self.code.word(at) {
                mark @ ("," | "}" | ";") => {
                    if path != outer {
                        found.push(Import { path, name: name.take() });
                    }
                    if mark == "}" {
                        open.pop();
                    }
                    path = open.last().cloned().unwrap_or_default();
                }
                "{" if may_go_on && open.len() <= DEEPEST => open.push(path.clone()),
                "self" if path.ends_with("::") => path.truncate(path.len() - 2),
                "::" if !may_go_on && name.is_none() => path.push_str("::"),
                "as" if !may_go_on => {}
                word if self.code.before(at) == "as" && self.code.kind(at) == Kind::Word => name = Some(word),
                word if may_go_on && self.code.kind(at) == Kind::Word => path.push_str(word),
                word => return self.refuse(at, format!("{word}: not known in an import")),
            }
        }
        Ok(found)
    }
}
