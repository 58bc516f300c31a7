//! The version of the program, as the sources tell it.
use super::code::Code;
use super::refused::Refused;
use super::sources::Sources;

/// The crate and the place of the file that tells the version: the first line of the text `VERSION`.
const TOLD_IN: (&str, &str) = ("mapf_words", "command");

/// The version, and the file that tells it.
pub fn version_told(all: &[Sources]) -> Result<(String, String), Refused> {
    let (name, place) = TOLD_IN;
    let file = format!("crates/{name}/src/{place}.rt");
    let text = all.iter().find(|sources| sources.own.name == name).and_then(|sources| sources.texts.get(place));
    let code = Code::read(&file, text.map_or("", String::as_str))?;
    let definition = (0..code.len()).find(|&at| code.reads(at, "const VERSION : & str ="));
    let first_line = definition.and_then(|at| code.word(at + 6).strip_prefix('"')?.lines().next());
    match first_line {
        Some(version) => Ok((version.trim_end_matches('"').to_owned(), file)),
        None => Err(Refused::whole(&file, "there is no text VERSION")),
    }
}
