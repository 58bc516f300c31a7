//! The translator: what becomes of texts in Rattle that are hard to read, and which texts it refuses.
#[path = "translate/changed.rs"]
mod changed;
#[path = "translate/damaged.rs"]
mod damaged;
#[path = "translate/kept.rs"]
mod kept;
#[path = "translate/modules.rs"]
mod modules;
#[path = "translate/refused.rs"]
mod refused;
#[path = "translate/repository.rs"]
mod repository;
#[path = "translate/tokens.rs"]
mod tokens;
#[allow(dead_code)]
#[path = "../translate/mod.rs"]
mod translate;

use translate::crates::Crate;
use translate::{Refused, Sources};

/// What stands at the head of each file.
const PRELUDE: &str = "#[allow(unused_imports)]\nuse crate::rattle_std::prelude::*;\n";

/// The sources of a crate, by their places.
fn sources(name: &str, uses: &[&str], texts: &[(&str, &str)]) -> Sources {
    let texts = texts.iter().map(|(place, text)| ((*place).to_owned(), (*text).to_owned()));
    let own = Crate { name: name.to_owned(), uses: uses.iter().map(|&name| name.to_owned()).collect() };
    Sources { own, texts: texts.collect() }
}

/// What becomes of a crate.
fn crate_of(name: &str, uses: &[&str], texts: &[(&str, &str)]) -> Result<String, Refused> {
    let whole = translate::translate(&[sources(name, uses, texts)])?;
    let (_, text) = whole.split_once("\n\n").expect("a title");
    Ok(text.to_owned())
}

/// What becomes of a text that is the only one of a crate.
fn translated(text: &str) -> Result<String, Refused> {
    let whole = crate_of("x", &["mapf_model"], &[("lib", text)])?;
    let body = whole.strip_prefix("pub(crate) mod x {\n// crates/x/src/lib.rt\n");
    let body = body.and_then(|body| body.strip_suffix("}\n")).expect("a module");
    Ok(body.replacen(PRELUDE, "", 1))
}

/// Tries that a text stays as it is.
#[track_caller]
fn assert_kept(text: &str) {
    assert_changed(text, text);
}

/// Tries what becomes of a text.
#[track_caller]
fn assert_changed(text: &str, wanted: &str) {
    match translated(text) {
        Ok(found) => assert_eq!(found, wanted, "\n--- from\n{text}--- came\n{found}--- and not\n{wanted}"),
        Err(why) => panic!("{why}\n{text}"),
    }
}

/// Tries that a text is refused, in which line, and that the reason has these words.
#[track_caller]
fn assert_refused(text: &str, line: usize, words: &str) {
    match translated(text) {
        Ok(found) => panic!("\n--- from\n{text}--- came\n{found}"),
        Err(why) => {
            assert_eq!((why.file.as_str(), why.line), ("crates/x/src/lib.rt", Some(line)), "{why}\n{text}");
            assert!(why.why.contains(words), "{why}\n{text}");
            assert_eq!(why.to_string(), format!("crates/x/src/lib.rt:{line}: {}", why.why));
        }
    }
}
