//! The items of other libraries that the sources may name, and what stands for them in Rust.
//!
//! Rattle's standard library and its ports of crates are other code than Rust's, so a path into them is known only if
//! it is in one of these tables. Growing a collection can fail there, for one, so `crate::rattle_std` has its own.

use super::translator::is_listed;

/// The libraries that Rattle has.
const LIBRARIES: &str =
    "alloc anyhow clap core indexmap itoa rand rand_core rand_pcg smallvec std std_alloc std_heap thiserror";

/// The module that stands for these libraries.
pub const FACADE: &str = "crate::rattle_std";

/// Modules and items that mean the same in Rust, each line with the module that has them.
const SAME: [(&str, &str); 7] = [
    ("std", "fmt io mem"),
    ("std::cmp", "Ordering Reverse"),
    ("std::fs", "Metadata"),
    ("std::hash", "Hash Hasher"),
    ("std::io", "Read Write"),
    ("std::mem", "swap"),
    ("std::os::unix::fs", "MetadataExt"),
];

/// Modules and items for which the facade stands, each line with the module that has them and the one below the
/// facade.
const OURS: [(&str, &str, &str); 19] = [
    ("anyhow", "anyhow", "Error Result anyhow ensure"),
    ("clap", "clap", "Arg ArgAction ArgMatches Command Error value_parser"),
    ("clap::error", "clap::error", "ErrorKind"),
    ("indexmap", "indexmap", "IndexMap IndexSet"),
    ("indexmap::map", "indexmap::map", "Iter"),
    ("itoa", "itoa", "Buffer"),
    ("rand", "random", "RngExt"),
    ("rand::seq", "random", "SliceRandom"),
    ("rand_core", "random", "Rng"),
    ("rand_pcg", "random", "Pcg32"),
    ("smallvec", "smallvec", "SmallVec"),
    ("std", "", "env fs"),
    ("std::alloc", "alloc", "AllocError AllocFailed Global"),
    ("std::collections", "collections", "BTreeMap BTreeSet BinaryHeap HashMap HashSet VecDeque"),
    ("std::fs", "fs", "File OpenOptions"),
    ("std::hash", "hash", "FoldHasher"),
    ("std::io", "io", "IsTerminal"),
    ("std::process", "process", "ExitCode"),
    ("std::rt", "rt", "Env Files"),
];

/// Items of which nothing is left: a trait with ghost members alone, and a derive that is written out.
const GONE: [&str; 2] = ["std::marker::Model", "thiserror::Error"];

/// What stands for an item of a library.
#[derive(Clone, Debug, PartialEq, Eq)]
pub enum Item {
    /// The item with this path.
    At(String),
    /// Nothing.
    Gone,
}

/// Whether there is such a library.
pub fn is_library(name: &str) -> bool {
    is_listed(LIBRARIES, name)
}

/// What stands for the item with this path. None if it isn't known.
pub fn item_of(path: &str) -> Option<Item> {
    let found = listed(path);
    if found.is_some() {
        return found;
    }
    // A variant or a function of a type is where the type is.
    let (owner, name) = path.rsplit_once("::")?;
    let is_type = owner.rsplit("::").next()?.starts_with(|sign: char| sign.is_ascii_uppercase());
    match listed(owner)? {
        Item::At(place) if is_type => Some(Item::At(format!("{place}::{name}"))),
        _ => None,
    }
}

fn listed(path: &str) -> Option<Item> {
    if GONE.contains(&path) {
        return Some(Item::Gone);
    }
    let (module, name) = path.rsplit_once("::")?;
    if SAME.iter().any(|(known, names)| *known == module && is_listed(names, name)) {
        return Some(Item::At(path.to_owned()));
    }
    let (_, place, _) = OURS.iter().find(|(known, _, names)| *known == module && is_listed(names, name))?;
    let separator = if place.is_empty() { "" } else { "::" };
    Some(Item::At(format!("{FACADE}::{place}{separator}{name}")))
}
