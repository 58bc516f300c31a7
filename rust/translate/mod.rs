//! Makes plain Rust of the sources in Rattle, `crates/*/src/*.rt`. The build script calls it at each build.
//!
//! Rattle is Rust with contracts, which are proved of the functions. The translation removes the contracts and whatever
//! else is there for proofs, and names `crate::rattle_std` where Rattle has a library of its own. The code stays as it
//! is written otherwise. What isn't known here is refused, with its file, its line and a reason.
mod attributes;
mod clauses;
mod code;
pub mod crates;
mod errors;
mod functions;
mod imports;
pub mod libraries;
mod macros;
mod methods;
mod modules;
mod output;
mod paths;
mod refused;
mod sources;
pub mod tokens;
mod traits;
pub mod translator;
mod version;

pub use crates::needed_crates;
pub use refused::Refused;
pub use sources::Sources;
pub use version::version_told;

use std::collections::BTreeSet;

/// The first line of the result.
const TITLE: &str = "// What rust/translate makes of crates/*/src at each build.\n";

/// The sources of crates in Rust. The result has a module for each crate.
pub fn translate(all: &[Sources]) -> Result<String, Refused> {
    let texts = all.iter().flat_map(|sources| sources.texts.values());
    let macros: BTreeSet<&str> = texts.flat_map(|text| macros::macros_of(text)).collect();
    let mut result = TITLE.to_owned();
    for sources in all {
        result.push('\n');
        result += &modules::module_of(sources, &macros)?;
    }
    Ok(result)
}
