//! Macros. Those that take an allocator or the runtime first are the facade's, and those of the sources stay.
use super::libraries::FACADE;
use super::refused::Refused;
use super::tokens::{Kind, is_in_word};
use super::translator::{Translator, is_listed};

/// Macros that mean the same in Rust, and those that an import brings in from the facade.
const SAME: &str = "anyhow concat ensure matches unreachable value_parser write";

impl Translator<'_> {
    /// Applies the rule of a call of a macro.
    pub(super) fn macro_call(&mut self, at: usize) -> Result<usize, Refused> {
        let (name, open) = (self.code.word(at), at + 2);
        match name {
            "vec" | "format" if self.code.word(open + 1) == "in" => {
                self.code.write(at, format!("{FACADE}::{name}_in"));
                self.code.remove_with_blanks(open + 1, open + 1);
            }
            "vec" | "format" => return self.refuse(at, format!("{name}!: no allocator")),
            "println" if self.code.find(open + 1, ";").is_some() => {
                self.code.write(at, format!("{FACADE}::{name}_rt"));
            }
            "println" => return self.refuse(at, "println!: no runtime"),
            "prove" => self.code.write(at, "debug_assert"),
            _ if is_listed(SAME, name) || self.surroundings.macros.contains(name) => {}
            _ => return self.refuse(at, format!("{name}!: no macro that is known here")),
        }
        Ok(open + 1)
    }

    /// Lets other modules import a macro by its path, as other crates do.
    pub(super) fn exported_macro(&mut self, at: usize, last: usize) -> Result<(), Refused> {
        let name = last + 3;
        let is_known = self.code.reads(last + 1, "macro_rules !")
            && self.code.kind(name) == Kind::Word
            && self.code.word(name + 1) == "{"
            && self.code.depth(at) == 0;
        if !is_known {
            return self.refuse(at, "macro_export: not known in this place");
        }
        let word = self.code.word(name);
        self.code.remove_with_blanks(at, last);
        let end = self.code.closing(name + 1);
        self.code.write(end, format!("}}\n\npub(crate) use {word};"));
        self.exported.push(word);
        Ok(())
    }
}

/// The names of the macros that a text defines.
pub fn macros_of(text: &str) -> impl Iterator<Item = &str> {
    let definitions = text.split("macro_rules!").skip(1);
    definitions.filter_map(|rest| rest.split(|sign| !is_in_word(sign)).find(|name| !name.is_empty()))
}
