//! Paths. All crates are modules of one package, so a path into a crate begins at its module there. A path into another
//! library is known only if something stands for what it names.
use super::libraries::{Item, is_library, item_of};
use super::refused::Refused;
use super::tokens::Kind;
use super::translator::{Translator, is_keyword};

/// The module in which all crates stand.
const CRATES: &str = "crate::crates";

impl Translator<'_> {
    /// Applies the rule of a word that may begin a path.
    pub(super) fn path(&mut self, at: usize) -> Result<usize, Refused> {
        let (before, word, next) = (self.code.before(at), self.code.word(at), self.code.word(at + 1));
        let own = self.surroundings.own;
        let is_head = next == "::";
        match word {
            "crate" if is_head => self.code.write(at, format!("{CRATES}::{}", own.name)),
            "crate" if (before, next) != ("(", ")") => {
                return self.refuse(at, "crate: known only as the head of a path");
            }
            _ if is_library(word) && is_head => return self.library_path(at),
            _ if own.uses.iter().any(|other| other == word) && (is_head || before == "use") => {
                self.code.write(at, format!("{CRATES}::{word}"));
            }
            _ if word.starts_with("mapf_") && is_head => {
                return self.refuse(at, format!("{word}: no crate that {} stands on", own.name));
            }
            _ => {}
        }
        Ok(at + 1)
    }

    fn library_path(&mut self, at: usize) -> Result<usize, Refused> {
        let mut last = at;
        while self.code.word(last + 1) == "::" && self.code.kind(last + 2) == Kind::Word {
            last += 2;
        }
        let path: String = (at..=last).map(|at| self.code.word(at)).collect();
        match item_of(&path) {
            Some(Item::At(place)) => self.code.replace(at, last, place),
            _ => return self.refuse(at, format!("{path}: no item that is known here")),
        }
        Ok(last + 1)
    }

    /// Whether a path begins with these two colons.
    pub(super) fn is_rooted_path(&self, at: usize) -> bool {
        let before = self.code.before(at);
        let is_behind_word = at.checked_sub(1).is_some_and(|last| self.code.kind(last) == Kind::Word);
        let is_behind_path = (is_behind_word && !is_keyword(before)) || matches!(before, ">" | "]" | ")");
        self.code.kind(at + 1) == Kind::Word && !is_behind_path
    }
}
