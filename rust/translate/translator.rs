//! The rules, and which of them a token calls for.
//!
//! A rule reads on from a token, decides what becomes of what it reads, and answers where to go on. The rules stand in
//! files by what they are about: clauses, attributes, functions, traits, macros, methods, paths and modules. What begins
//! like something that a rule is about and isn't of a form that it knows is refused. So are words and signs that mean
//! nothing in Rust, or something else.
use super::code::{Code, is_opening};
use super::crates::Crate;
use super::modules::Module;
use super::refused::Refused;
use super::tokens::Kind;
use std::collections::BTreeSet;

/// Words that no source may have, but for names behind a dot or two colons. What they do in Rattle isn't known here, or
/// they are about pointers, threads, or code that has to be written by hand.
pub const REFUSED_WORDS: &str =
    "Arc Rc async axiom box catch_unwind dyn extern final forever prove_eq prove_ne thread union unsafe yield";

/// Keywords that no path ends with, and that name no macro.
const KEYWORDS: &str = "as await break const continue else enum fn for if impl in let loop match mod move mut pub ref \
                        return static struct trait type use where while";

/// Signs that mean the same in Rust.
const SIGNS: &str = "( ) [ ] { } < > = + - * / % ^ & | ! ? : ; , . @ $ :: -> =>";

/// Whether a name is in a list with a blank between any two.
pub fn is_listed(list: &str, name: &str) -> bool {
    list.split(' ').any(|known| known == name)
}

/// Whether a word is a keyword that no path ends with.
pub fn is_keyword(word: &str) -> bool {
    is_listed(KEYWORDS, word)
}

/// What a file belongs to.
#[derive(Clone, Copy)]
pub struct Surroundings<'a> {
    /// The crate of the file.
    pub own: &'a Crate,
    /// The macros that the sources of all crates define.
    pub macros: &'a BTreeSet<&'a str>,
    /// Whether the file is the root of a program.
    pub is_program: bool,
}

/// The translation of a file.
pub struct Translator<'a> {
    pub(super) code: Code<'a>,
    pub(super) surroundings: Surroundings<'a>,
    /// The modules that the file names.
    pub(super) modules: Vec<Module<'a>>,
    /// The macros that it defines for other files.
    pub(super) exported: Vec<&'a str>,
    /// The enum that derives `Error`, and for each variant the arm of a match that shows it.
    pub(super) error_enum: Option<&'a str>,
    pub(super) error_arms: Vec<String>,
}

impl<'a> Translator<'a> {
    /// Reads a file and applies all rules.
    pub fn read(file: &'a str, text: &'a str, surroundings: Surroundings<'a>) -> Result<Translator<'a>, Refused> {
        let mut translator = Translator {
            code: Code::read(file, text)?,
            surroundings,
            modules: Vec::new(),
            exported: Vec::new(),
            error_enum: None,
            error_arms: Vec::new(),
        };
        let mut at = 0;
        while at < translator.code.len() {
            at = translator.rule(at)?;
        }
        Ok(translator)
    }

    /// The file in Rust, with these lines at its head.
    pub fn result(&self, lines: &str) -> String {
        self.code.result(lines) + &self.shown_error()
    }

    /// Refuses the line of a token.
    pub(super) fn refuse<T>(&self, at: usize, why: impl AsRef<str>) -> Result<T, Refused> {
        Err(self.code.refused(at, why.as_ref()))
    }

    fn rule(&mut self, at: usize) -> Result<usize, Refused> {
        match self.code.kind(at) {
            Kind::Word => self.word_rule(at),
            Kind::Mark => self.mark_rule(at),
            _ => Ok(at + 1),
        }
    }

    fn word_rule(&mut self, at: usize) -> Result<usize, Refused> {
        let (before, word) = (self.code.before(at), self.code.word(at));
        match word {
            _ if !word.is_ascii() => self.refuse(at, format!("{word}: a word of proofs, outside of a clause")),
            "requires" | "ensures" => self.clause(at),
            "invariant" | "decreases" if !matches!(before, "." | "::" | "let" | "mut" | "fn" | "&") => self.clause(at),
            "ghost" => self.ghost(at),
            "impl" if matches!(before, "" | ";" | "}" | "]" | "{") => self.implementation(at),
            "Drop" => self.drop_bound(at),
            "trait" => self.definition_of_trait(at),
            "fn" => self.function(at),
            "mod" => self.module(at),
            "use" => self.import(at),
            _ if self.is_macro_call(at) => self.macro_call(at),
            _ if matches!(before, "." | "::") => self.method(at),
            _ if is_listed(REFUSED_WORDS, word) => self.refuse(at, format!("{word}: not known here")),
            _ => self.path(at),
        }
    }

    fn mark_rule(&mut self, at: usize) -> Result<usize, Refused> {
        match self.code.word(at) {
            "#" => self.attribute(at),
            "::" if self.is_rooted_path(at) => self.refuse(at, "::: no path may begin so here"),
            word if is_listed(SIGNS, word) => Ok(at + 1),
            word => self.refuse(at, format!("{word}: a sign that Rust doesn't have, outside of a clause")),
        }
    }

    fn is_macro_call(&self, at: usize) -> bool {
        self.code.word(at + 1) == "!" && is_opening(self.code.word(at + 2)) && !is_keyword(self.code.word(at))
    }

    /// Refuses an attribute before what begins at `at` and is removed. It would fall to what stands below.
    pub(super) fn check_no_attribute(&self, at: usize) -> Result<(), Refused> {
        match at.checked_sub(1) {
            Some(last) if self.code.word(last) == "]" && !self.code.is_gone(last) => {
                self.refuse(last, "an attribute of what is removed isn't known here")
            }
            _ => Ok(()),
        }
    }
}
