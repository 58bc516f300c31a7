//! Which crates there are by `crates.txt`, and which of them the package has.
use super::libraries::is_library;
use super::refused::Refused;
use std::fs;
use std::path::Path;

/// The list of crates.
const LIST: &str = "crates.txt";

/// The program, the benchmark, the fuzzer and the library for C, each with the feature that it needs. The package has
/// these crates, and all that they stand on.
const ROOTS: [(&str, &str); 4] = [("mapf", "cli"), ("mapf_bench", "cli"), ("mapf_fuzz", "cli"), ("mapf_c", "c")];

/// A crate of the repository.
#[derive(Clone, Debug, PartialEq, Eq)]
pub struct Crate {
    /// Its name.
    pub name: String,
    /// The crates and libraries that it stands on.
    pub uses: Vec<String>,
}

impl Crate {
    /// The folder of its sources, as a path from the top of the repository.
    pub fn folder(&self) -> String {
        format!("crates/{}/src", self.name)
    }

    /// The feature of the package without which the crate is left out, if there is one.
    pub fn feature(&self) -> Option<&'static str> {
        ROOTS.iter().find(|(root, _)| *root == self.name).map(|(_, feature)| *feature)
    }
}

/// The crates that the package has, by the list at the top of a checkout and in its order.
pub fn needed_crates(top: &Path) -> Result<Vec<Crate>, Refused> {
    let list = fs::read_to_string(top.join(LIST)).map_err(|error| Refused::unread(LIST, &error))?;
    let mut crates = all_crates(&list)?;
    let mut names: Vec<String> = ROOTS.iter().map(|(root, _)| (*root).to_owned()).collect();
    let mut next = 0;
    while let Some(name) = names.get(next) {
        let Some(found) = crates.iter().find(|known| known.name == *name) else {
            return Err(Refused::whole(LIST, &format!("there is no crate {name}")));
        };
        let missing = found.uses.iter().filter(|other| !is_library(other) && !names.contains(other));
        let missing: Vec<String> = missing.cloned().collect();
        names.extend(missing);
        next += 1;
    }
    crates.retain(|known| names.contains(&known.name));
    Ok(crates)
}

/// The crates of a list, each in a line: a name, a colon, and what the crate stands on.
fn all_crates(list: &str) -> Result<Vec<Crate>, Refused> {
    let mut crates: Vec<Crate> = Vec::new();
    for (number, line) in (1..).zip(list.lines()) {
        let refuse = |why: &str| Refused::at(LIST, number, why);
        let line = line.split('#').next().unwrap_or_default().trim();
        if line.is_empty() {
            continue;
        }
        let (head, uses) = line.split_once(':').ok_or_else(|| refuse("there is no colon"))?;
        // Behind the name may stand what the toolchain makes of the crate.
        let name = head.split_whitespace().next().unwrap_or_default();
        if name.is_empty() || !name.chars().all(|sign| matches!(sign, 'a'..='z' | '0'..='9' | '_')) {
            return Err(refuse("a crate has a name of small letters, digits and underscores"));
        }
        if crates.iter().any(|known| known.name == name) {
            return Err(refuse(&format!("there is a crate {name} above")));
        }
        let uses = uses.split_whitespace().map(str::to_owned).collect();
        crates.push(Crate { name: name.to_owned(), uses });
    }
    Ok(crates)
}
