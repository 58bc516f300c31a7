//! Modules. All crates stand in one text: a module's file stands in a block behind its name, so `mod x;` becomes
//! `mod x { .. }`.
use super::crates::Crate;
use super::libraries::FACADE;
use super::refused::Refused;
use super::sources::Sources;
use super::tokens::Kind;
use super::translator::{Surroundings, Translator};
use std::collections::BTreeSet;

/// Modules that hold pointers, and so are written by hand: the crate, the module, and the module in the package that
/// stands for it. For two of them none does.
const BY_HAND: [(&str, &str, &str); 3] =
    [("mapf_c", "handle", "crate::c::handle"), ("mapf_c", "kept", ""), ("mapf_c", "parts", "")];

/// A module that has a file of its own.
pub struct Module<'a> {
    /// The token `mod`.
    at: usize,
    name: &'a str,
}

impl Translator<'_> {
    /// Notes a module that has a file of its own.
    pub(super) fn module(&mut self, at: usize) -> Result<usize, Refused> {
        let (name, end) = (self.code.word(at + 1), at + 2);
        if self.code.kind(at + 1) != Kind::Word || self.code.word(end) != ";" || self.code.depth(at) > 0 {
            return self.refuse(at, "mod: known only for a module in a file of its own");
        }
        match by_hand(self.surroundings.own, name) {
            Some("") => self.code.remove_with_blanks(at, end),
            Some(place) => self.code.replace(at, end, format!("pub(crate) use {place};")),
            None => {}
        }
        self.modules.push(Module { at, name });
        Ok(end + 1)
    }
}

/// The module that stands for one of this crate, if it is written by hand. Nothing in it if none does.
pub fn by_hand(own: &Crate, name: &str) -> Option<&'static str> {
    let is_it = |known: &str, module: &str| own.name == known && name == module;
    let found = BY_HAND.iter().find(|(known, module, _)| is_it(known, module));
    found.map(|(_, _, place)| *place)
}

/// A crate in Rust, as a module. The macros that the sources of all crates define are given.
pub fn module_of(sources: &Sources, macros: &BTreeSet<&str>) -> Result<String, Refused> {
    let is_program = sources.texts.contains_key("main");
    let reached = BTreeSet::new();
    let mut tree = Tree { sources, macros, reached };
    let root = if is_program { "main" } else { "lib" };
    let (text, _) = tree.file(root, "")?;
    if let Some(place) = sources.texts.keys().find(|place| !tree.reached.contains(*place)) {
        return Err(Refused::whole(&sources.file(place), "no mod reaches this file"));
    }
    let feature = sources.own.feature().map(|name| format!("#[cfg(feature = \"{name}\")]\n"));
    let feature = feature.unwrap_or_default();
    Ok(format!("{feature}pub(crate) mod {} {{\n{text}}}\n", sources.own.name))
}

/// The modules of a crate, as they are reached from its root.
struct Tree<'a> {
    sources: &'a Sources,
    macros: &'a BTreeSet<&'a str>,
    // The places of the files so far.
    reached: BTreeSet<String>,
}

impl Tree<'_> {
    /// A file in Rust, with its modules, which have their files in this folder. Also the macros that it exports.
    fn file(&mut self, place: &str, folder: &str) -> Result<(String, Vec<String>), Refused> {
        let file = self.sources.file(place);
        let Some(text) = self.sources.texts.get(place) else {
            return Err(Refused::whole(&file, "there is no such file"));
        };
        self.reached.insert(place.to_owned());
        let surroundings = Surroundings { own: &self.sources.own, macros: self.macros, is_program: place == "main" };
        let mut translator = Translator::read(&file, text, surroundings)?;
        let mut exported: Vec<String> = translator.exported.iter().map(|&name| name.to_owned()).collect();
        let mut imports = String::new();
        for Module { at, name } in std::mem::take(&mut translator.modules) {
            let place = self.place_of(name, folder);
            let place = place.map_err(|why| translator.code.refused(at, &why))?;
            if by_hand(&self.sources.own, name).is_some() {
                self.reached.insert(place);
                continue;
            }
            let (text, macros) = self.file(&place, &format!("{folder}{name}/"))?;
            translator.code.write(at + 2, format!(" {{\n{text}}}"));
            if !macros.is_empty() {
                let names = macros.join(", ");
                imports += &format!("\n#[allow(unused_imports)]\npub(crate) use {name}::{{{names}}};\n");
                exported.extend(macros);
            }
        }
        let prelude = format!("#[allow(unused_imports)]\nuse {FACADE}::prelude::*;\n");
        Ok((format!("// {file}\n{}{imports}", translator.result(&prelude)), exported))
    }

    /// The place of the file of a module.
    fn place_of(&self, name: &str, folder: &str) -> Result<String, String> {
        let places = [format!("{folder}{name}"), format!("{folder}{name}/mod")];
        let texts = &self.sources.texts;
        let mut found = places.into_iter().filter(|place| texts.contains_key(place));
        match (found.next(), found.next()) {
            (Some(place), None) => Ok(place),
            (None, _) => Err(format!("mod {name}: there is no file for it")),
            (Some(_), Some(_)) => Err(format!("mod {name}: there are two files for it")),
        }
    }
}
