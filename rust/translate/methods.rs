//! Methods that take an allocator or may fail, as Rust's own of the same names don't.
use super::refused::Refused;
use super::translator::Translator;

impl Translator<'_> {
    /// Applies the rule of a word behind a dot or two colons.
    pub(super) fn method(&mut self, at: usize) -> Result<usize, Refused> {
        let arguments = at + 2;
        if self.code.before(at) != "." || self.code.word(at + 1) != "(" {
            return Ok(at + 1);
        }
        match self.code.word(at) {
            "clone" if self.code.reads(arguments, ") ?") => self.code.write(at, "try_clone"),
            "to_string" if self.is_allocator(arguments) => self.code.write(at, "to_string_in"),
            _ => {}
        }
        Ok(arguments)
    }

    /// Whether an argument is an allocator: a path that ends in `alloc` or `alloc()`.
    fn is_allocator(&self, mut at: usize) -> bool {
        while matches!(self.code.word(at + 1), "." | "::") {
            at += 2;
        }
        let is_named_so = self.code.word(at) == "alloc";
        is_named_so && (matches!(self.code.word(at + 1), "," | ")") || self.code.reads(at + 1, "( )"))
    }
}
