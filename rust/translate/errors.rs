//! The derive `Error` of the library thiserror. It writes how an error is shown, from an attribute of each variant; here
//! that is written out below the type. One enum of a file may have it, with at most one field in each variant.
use super::refused::Refused;
use super::translator::Translator;

impl Translator<'_> {
    /// Notes the enum that derives `Error`. What stands behind that attribute begins at `at`.
    pub(super) fn error_enum(&mut self, mut at: usize) -> Result<(), Refused> {
        while self.code.word(at) == "#" {
            at = self.code.behind(at + 1);
        }
        at += usize::from(self.code.word(at) == "pub");
        if self.code.word(at) != "enum" || self.code.depth(at) > 0 || self.error_enum.is_some() {
            return self.refuse(at, "Error: known only for one enum of a file");
        }
        self.error_enum = Some(self.code.word(at + 1));
        Ok(())
    }

    /// Notes how a variant is shown, by an attribute that ends at `last`, and removes that.
    pub(super) fn error_variant(&mut self, at: usize, last: usize) -> Result<(), Refused> {
        let format = self.code.word(at + 4);
        let is_known = self.code.reads(at, "# [ error (") && self.code.reads(at + 5, ") ]");
        if !is_known || !format.starts_with('"') || format.contains("{{") {
            return self.refuse(at, "error: known only with one text, without {{");
        }
        let (variant, next) = (self.code.word(last + 1), self.code.word(last + 2));
        let field = if next == "(" { "(of)" } else { "" };
        let format = format.replace("{0", "{of");
        self.error_arms.push(format!("Self::{variant}{field} => write!(f, {format}),"));
        self.code.remove_with_blanks(at, last);
        Ok(())
    }

    /// What the derive writes. Nothing if no type has it.
    pub(super) fn shown_error(&self) -> String {
        let Some(name) = self.error_enum else {
            return String::new();
        };
        let arms = self.error_arms.join("\n            ");
        format!(
            "
impl std::fmt::Display for {name} {{
    fn fmt(&self, f: &mut std::fmt::Formatter<'_>) -> std::fmt::Result {{
        match self {{
            {arms}
        }}
    }}
}}

impl std::error::Error for {name} {{}}
"
        )
    }
}
