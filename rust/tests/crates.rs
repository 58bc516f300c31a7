//! Calls of the crates that no command shows on its own: worked values, problems that are drawn, each beside a search by
//! brute force, devices that fail, and requests for memory that are refused.
//!
//! The crates are those of the package, as the build script translates them. Their types and calls take the allocator,
//! and their collections are those of `rust/std`. With the feature `c` the crates need the package's calls for C, which
//! aren't here, so these tests run without it.
#![cfg(not(feature = "c"))]

#[allow(clippy::all, unused)]
mod crates {
    include!(concat!(env!("OUT_DIR"), "/crates.rs"));
}
#[allow(dead_code, unused_imports, unused_macros)]
#[path = "../std/mod.rs"]
mod rattle_std;

#[path = "crates/cases.rs"]
mod cases;
#[path = "crates/checks.rs"]
mod checks;
#[path = "crates/ends.rs"]
mod ends;
#[path = "crates/formats.rs"]
mod formats;
#[path = "crates/groups.rs"]
mod groups;
#[path = "crates/json.rs"]
mod json;
#[path = "crates/judge.rs"]
mod judge;
#[path = "crates/layers.rs"]
mod layers;
#[path = "crates/lemma_texts.rs"]
mod lemma_texts;
#[path = "crates/made.rs"]
mod made;
#[path = "crates/memory.rs"]
mod memory;
#[path = "crates/packing.rs"]
mod packing;
#[path = "crates/paths.rs"]
mod paths;
#[path = "crates/plans.rs"]
mod plans;
#[path = "crates/player.rs"]
mod player;
#[path = "crates/prices.rs"]
mod prices;
#[path = "crates/problems.rs"]
mod problems;
mod refusing;
#[path = "crates/running.rs"]
mod running;
#[path = "crates/runs.rs"]
mod runs;
#[path = "crates/search.rs"]
mod search;
#[path = "crates/values.rs"]
mod values;
#[path = "crates/words.rs"]
mod words;
