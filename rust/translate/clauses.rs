//! Contracts and ghost code. A program doesn't run them, so they go, with the comments that explain them.
//!
//!     requires|ensures|invariant|decreases [*] [NAME] { .. }
//!     ghost use PATH;
//!     [pub] ghost NAME [: { .. }] [by { .. }] [= { .. }] (; or ,)
//!     impl[<..>] [PATH::]Model for TYPE { ghost members }
use super::refused::Refused;
use super::tokens::Kind;
use super::translator::Translator;

impl Translator<'_> {
    /// Removes a clause of a function, a closure or a loop.
    pub(super) fn clause(&mut self, at: usize) -> Result<usize, Refused> {
        let mut open = at + 1 + usize::from(self.code.word(at + 1) == "*");
        open += usize::from(self.code.kind(open) == Kind::Word);
        if self.code.word(open) != "{" {
            return self.refuse(at, format!("{}: no clause", self.code.word(at)));
        }
        let last = self.code.closing(open);
        self.code.remove_with_comments(at, last);
        match self.code.word(last + 1) {
            ";" => self.code.remove_blanks_behind(last),
            "{" if self.code.before(at) != "," => {
                self.code.remove_blanks_behind(last);
                self.code.write(last + 1, " {");
            }
            _ => {}
        }
        Ok(last + 1)
    }

    /// Removes an import for clauses, or a ghost member of a type, a trait or an `impl`.
    pub(super) fn ghost(&mut self, at: usize) -> Result<usize, Refused> {
        let first = if self.code.before(at) == "pub" { at - 1 } else { at };
        self.check_no_attribute(first)?;
        if self.code.word(at + 1) == "use" {
            let last = self.code.require(at, ";")?;
            self.code.remove_with_blanks(first, last);
            return Ok(last + 1);
        }
        let Some(last) = self.end_of_member(at) else {
            return self.refuse(at, "ghost: no member");
        };
        self.code.remove_with_comments(first, last);
        Ok(last + 1)
    }

    /// The `;` or `,` that ends a ghost member.
    fn end_of_member(&self, at: usize) -> Option<usize> {
        let mut end = at + 2;
        for part in [": {", "by {", "= {"] {
            if self.code.reads(end, part) {
                end = self.code.behind(end + 1);
            }
        }
        let is_member = self.code.kind(at + 1) == Kind::Word && end > at + 2;
        (is_member && matches!(self.code.word(end), ";" | ",")).then_some(end)
    }

    /// Removes an `impl` of `Model`, a trait that says what a value stands for in clauses.
    pub(super) fn implementation(&mut self, at: usize) -> Result<usize, Refused> {
        let mut end = at + 1;
        let mut name = "";
        while !matches!(self.code.word(end), "" | "for" | "impl" | "where" | "{" | "}" | ")" | "]" | ";") {
            if self.code.word(end) == "<" {
                end = self.code.behind_parameters(end)?;
            } else {
                name = self.code.word(end);
                end = self.code.behind(end);
            }
        }
        match (name, self.code.word(end)) {
            ("Drop", "for") => self.refuse(at, "impl Drop: not known here"),
            ("Model", "for") => self.model(at),
            _ => Ok(at + 1),
        }
    }

    fn model(&mut self, at: usize) -> Result<usize, Refused> {
        self.check_no_attribute(at)?;
        let open = self.code.require(at, "{")?;
        let last = self.code.closing(open);
        let mut member = open + 1;
        while member < last {
            let ghost = member + usize::from(self.code.word(member) == "pub");
            if self.code.word(ghost) != "ghost" {
                return self.refuse(member, "impl Model: more than ghost members");
            }
            member = self.ghost(ghost)?;
        }
        self.code.remove_with_comments(at, last);
        Ok(last + 1)
    }
}
