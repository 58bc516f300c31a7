//! Functions that take in Rattle what they don't take in Rust: `main` takes the runtime, and `fmt` its writer's type.
use super::refused::Refused;
use super::translator::Translator;

impl Translator<'_> {
    /// Applies the rule of a function. Most are the same in both languages.
    pub(super) fn function(&mut self, at: usize) -> Result<usize, Refused> {
        if self.code.word(at + 2) == "<" {
            self.writer(at + 2)?;
        }
        if self.surroundings.is_program && self.code.depth(at) == 0 && self.code.word(at + 1) == "main" {
            self.main_function(at)?;
        }
        Ok(at + 1)
    }

    /// Makes `fn main(rt: HostRuntime)` a function `main_with`, which the package's own `main` calls.
    fn main_function(&mut self, at: usize) -> Result<(), Refused> {
        if !self.code.reads(at + 2, "( rt : HostRuntime )") {
            return self.refuse(at, "main: it has to take rt: HostRuntime, and nothing else");
        }
        self.code.write(at, "/// Runs the program.\npub fn");
        self.code.write(at + 1, "main_with");
        Ok(())
    }

    /// Removes a parameter `W: fmt::Write`, the writer of a formatter. Rust's formatter has one of no certain type.
    fn writer(&mut self, open: usize) -> Result<(), Refused> {
        let behind = self.code.behind_parameters(open)?;
        let Some(at) = (open..behind).find(|&at| self.code.reads(at, "W : fmt :: Write")) else {
            return Ok(());
        };
        let end = self.code.closing(behind);
        let formatter = (behind..end).find(|&at| self.code.reads(at, "Formatter < W >"));
        match formatter {
            Some(formatter) if (at, behind) == (open + 1, open + 7) => {
                self.code.remove(open, behind - 1);
                self.code.write(formatter + 2, "'_");
                Ok(())
            }
            _ => self.refuse(at, "W: fmt::Write: known only alone, for a Formatter<W>"),
        }
    }
}
