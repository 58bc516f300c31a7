//! Attributes. Those for proofs go, those that mean the same in Rust stay, and any other is refused.
use super::refused::Refused;
use super::translator::{Translator, is_listed};

/// Attributes that mean the same in Rust.
const SAME: &str = "allow cold doc inline must_use non_exhaustive repr";

/// Derives that mean the same in Rust.
const DERIVES: &str = "Clone Copy Debug Default Eq Hash Ord PartialEq PartialOrd";

/// Derives that Rust doesn't have.
const GONE: &str = "Drop Error";

/// The crate whose functions C calls. The package exports functions of its own, which call these.
const EXPORTING: &str = "mapf_c";

impl Translator<'_> {
    /// Applies the rule of an attribute.
    pub(super) fn attribute(&mut self, at: usize) -> Result<usize, Refused> {
        let open = at + 1 + usize::from(self.code.word(at + 1) == "!");
        if self.code.word(open) != "[" {
            return self.refuse(at, "#: no attribute");
        }
        let last = self.code.closing(open);
        match self.code.word(open + 1) {
            "tactic" => self.code.remove_with_blanks(at, last),
            "derive" => self.derive(at, last)?,
            "error" => self.error_variant(at, last)?,
            "macro_export" => self.exported_macro(at, last)?,
            "unsafe" => return self.export(at, last),
            name if is_listed(SAME, name) => return Ok(open + 2),
            name => return self.refuse(at, format!("{name}: no attribute that is known here")),
        }
        Ok(last + 1)
    }

    /// Leaves out the derives that Rust doesn't have.
    fn derive(&mut self, at: usize, last: usize) -> Result<(), Refused> {
        if !self.code.reads(at, "# [ derive (") || self.code.behind(at + 3) != last {
            return self.refuse(at, "derive: not known in this form");
        }
        let names = (at + 4..last - 1).map(|at| self.code.word(at)).filter(|&name| name != ",");
        let (gone, kept): (Vec<_>, Vec<_>) = names.partition(|&name| is_listed(GONE, name));
        if let Some(name) = kept.iter().find(|name| !is_listed(DERIVES, name)) {
            return self.refuse(at, format!("{name}: no derive that is known here"));
        }
        if gone.contains(&"Error") {
            self.error_enum(last + 1)?;
        }
        if kept.is_empty() {
            self.code.remove_with_blanks(at, last);
        } else if !gone.is_empty() {
            self.code.replace(at + 4, last - 2, kept.join(", "));
        }
        Ok(())
    }

    /// Makes a function that C calls one that Rust calls.
    fn export(&mut self, at: usize, last: usize) -> Result<usize, Refused> {
        let is_known = self.surroundings.own.name == EXPORTING
            && self.code.reads(at, "# [ unsafe ( no_mangle ) ] pub extern \"C\" fn");
        if !is_known {
            return self.refuse(at, "unsafe: exports are written by hand");
        }
        self.code.remove_with_blanks(at, last);
        self.code.remove_with_blanks(last + 2, last + 3);
        Ok(last + 4)
    }
}
