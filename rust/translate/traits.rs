//! Bounds and traits. Each type of Rattle has a size, and its values are dropped only if it is `Drop`. In Rust each type
//! is dropped, but the type of a trait has a size only if that is said.
use super::refused::Refused;
use super::translator::Translator;

impl Translator<'_> {
    /// Makes a bound `Drop` a bound `Sized`.
    pub(super) fn drop_bound(&mut self, at: usize) -> Result<usize, Refused> {
        let is_bound = matches!(self.code.before(at), ":" | "+")
            && matches!(self.code.word(at + 1), "+" | "," | ">" | "{" | ";" | "=" | "where");
        if !is_bound {
            return self.refuse(at, "Drop: no bound");
        }
        self.code.write(at, "Sized");
        Ok(at + 1)
    }

    /// Gives a trait the bound `Sized`, unless its first one becomes that.
    pub(super) fn definition_of_trait(&mut self, at: usize) -> Result<usize, Refused> {
        let mut end = at + 2;
        if self.code.word(end) == "<" {
            end = self.code.behind_parameters(end)?;
        }
        match self.code.word(end) {
            "{" | "where" => self.code.write(end - 1, format!("{}: Sized", self.code.word(end - 1))),
            ":" if self.code.word(end + 1) == "Drop" => {}
            ":" => self.code.write(end, ": Sized +"),
            _ => return self.refuse(at, "trait: not known in this form"),
        }
        Ok(at + 1)
    }
}
