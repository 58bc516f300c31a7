//! Makes plain Rust of the sources in Rattle: the file `crates.rs` below OUT_DIR, which `rust/src/lib.rs` includes.
#[path = "rust/translate/mod.rs"]
mod translate;

use std::error::Error;
use std::path::PathBuf;
use std::{env, fs};
use translate::{Sources, needed_crates, translate, version_told};

fn main() {
    if let Err(why) = build() {
        println!("cargo::error={why}");
    }
}

fn build() -> Result<(), Box<dyn Error>> {
    let top = PathBuf::from(variable("CARGO_MANIFEST_DIR")?);
    println!("cargo::rerun-if-changed=crates.txt");
    println!("cargo::rerun-if-changed=rust/translate");
    check_target()?;
    let crates = needed_crates(&top)?;
    for own in &crates {
        println!("cargo::rerun-if-changed={}", own.folder());
    }
    let sources = crates.iter().map(|own| Sources::read(&top, own)).collect::<Result<Vec<_>, _>>()?;
    check_version(&sources)?;
    let place = PathBuf::from(variable("OUT_DIR")?).join("crates.rs");
    let text = translate(&sources)?;
    fs::write(&place, text).map_err(|error| format!("{} can't be written: {error}", place.display()).into())
}

/// A variable that cargo sets for build scripts.
fn variable(name: &str) -> Result<String, String> {
    env::var(name).map_err(|error| format!("{name}: {error}"))
}

/// Refuses other targets than Unix with 64 bits: the proofs presume numbers of so many bits, and the program knows no
/// other files. For wasm32, which has neither, the library is built with overflow checks.
fn check_target() -> Result<(), String> {
    let is_unix = env::var("CARGO_CFG_UNIX").is_ok();
    let has_64_bits = variable("CARGO_CFG_TARGET_POINTER_WIDTH")? == "64";
    if (is_unix && has_64_bits) || variable("CARGO_CFG_TARGET_ARCH")? == "wasm32" {
        return Ok(());
    }
    Err(format!("mapf is for Unix with 64 bits, and for wasm32; {} is neither", variable("TARGET")?))
}

/// Refuses a package whose version isn't the one that the program tells.
fn check_version(sources: &[Sources]) -> Result<(), Box<dyn Error>> {
    let (told, file) = version_told(sources)?;
    let package = variable("CARGO_PKG_VERSION")?;
    if told == package {
        return Ok(());
    }
    Err(format!("the version is {told} in {file} (VERSION), and {package} in Cargo.toml (version)").into())
}
