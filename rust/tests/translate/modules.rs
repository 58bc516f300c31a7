//! Modules, crates, and what is written by hand.
use super::translate::{Sources, needed_crates, translate, version_told};
use super::{PRELUDE, crate_of, sources};
use std::fs;
use std::path::PathBuf;

/// A folder for the time of a test.
struct Folder(PathBuf);

impl Folder {
    fn with(name: &str, files: &[(&str, &[u8])]) -> Folder {
        let folder = Folder(std::env::temp_dir().join(format!("mapf-translate-{name}-{}", std::process::id())));
        for (place, bytes) in files {
            let path = folder.0.join(place);
            fs::create_dir_all(path.parent().expect("a folder")).expect("a folder");
            fs::write(path, bytes).expect("a file");
        }
        folder
    }
}

impl Drop for Folder {
    fn drop(&mut self) {
        let _ = fs::remove_dir_all(&self.0);
    }
}

#[track_caller]
fn assert_crate(texts: &[(&str, &str)], wanted: &str) {
    match crate_of("x", &[], texts) {
        Ok(found) => assert_eq!(found.replace(PRELUDE, "PRELUDE\n"), wanted, "\n{found}"),
        Err(why) => panic!("{why}"),
    }
}

#[track_caller]
fn assert_refused(name: &str, texts: &[(&str, &str)], wanted: &str) {
    assert_eq!(crate_of(name, &[], texts).map_err(|why| why.to_string()), Err(wanted.to_owned()));
}

#[test]
fn a_module_stands_where_it_is_named() {
    assert_crate(
        &[("lib", "mod a;\n\npub fn f() {}\n"), ("a", "fn g() {}\n")],
        "pub(crate) mod x {\n// crates/x/src/lib.rt\nPRELUDE\nmod a {\n// crates/x/src/a.rt\nPRELUDE\nfn g() {}\n}\n\n\
         pub fn f() {}\n}\n",
    );
}

#[test]
fn visibility_attributes_and_docs_of_a_module_stay() {
    assert_crate(
        &[
            ("lib", "/// Doc.\n#[allow(x)]\npub(crate) mod a;\n"),
            ("a", "//! Inner.\n#![allow(y)]\n#![tactic(auto)]\n\n/// Outer.\nfn g() {}\n"),
        ],
        "pub(crate) mod x {\n// crates/x/src/lib.rt\nPRELUDE\n/// Doc.\n#[allow(x)]\npub(crate) mod a {\n\
         // crates/x/src/a.rt\n//! Inner.\n#![allow(y)]\nPRELUDE\n/// Outer.\nfn g() {}\n}\n}\n",
    );
}

#[test]
fn inner_docs_stay_before_the_prelude() {
    assert_crate(
        &[("lib", "// Comment.\n//! One.\n//!\n//! Two.\n\nghost use A.{b};\nuse std::io;\n")],
        "pub(crate) mod x {\n// crates/x/src/lib.rt\n// Comment.\n//! One.\n//!\n//! Two.\nPRELUDE\n\nuse std::io;\n}\n",
    );
}

#[test]
fn empty_files() {
    assert_crate(
        &[("lib", "mod a;"), ("a", "")],
        "pub(crate) mod x {\n// crates/x/src/lib.rt\nPRELUDE\nmod a {\n// crates/x/src/a.rt\nPRELUDE\n}\n}\n",
    );
}

#[test]
fn modules_of_modules() {
    let texts = [("lib", "mod a;\nmod c;"), ("a", "mod b;"), ("a/b", ""), ("c/mod", "mod d;"), ("c/d", "")];
    let found = crate_of("x", &[], &texts).expect("a crate").replace(PRELUDE, "");
    let wanted = "pub(crate) mod x {\n// crates/x/src/lib.rt\nmod a {\n// crates/x/src/a.rt\nmod b {\n\
                  // crates/x/src/a/b.rt\n}\n}\nmod c {\n// crates/x/src/c/mod.rt\nmod d {\n// crates/x/src/c/d.rt\n}\n}\n}\n";
    assert_eq!(found, wanted);
}

#[test]
fn files_that_do_not_fit_the_modules() {
    assert_refused("x", &[("lib", "\nmod a;\n")], "crates/x/src/lib.rt:2: mod a: there is no file for it");
    assert_refused(
        "x",
        &[("lib", "mod a;\n"), ("a", ""), ("a/mod", "")],
        "crates/x/src/lib.rt:1: mod a: there are two files for it",
    );
    assert_refused("x", &[("lib", ""), ("b", "")], "crates/x/src/b.rt: no mod reaches this file");
    assert_refused("x", &[("lib", ""), ("main", "")], "crates/x/src/lib.rt: no mod reaches this file");
    assert_refused("x", &[("lib", "mod lib;\n")], "crates/x/src/lib.rt:1: mod lib: there is no file for it");
    assert_refused("x", &[("a", "")], "crates/x/src/lib.rt: there is no such file");
}

#[test]
fn a_refusal_names_the_file_of_the_module() {
    assert_refused("x", &[("lib", "mod a;\n"), ("a", "\n\nfn f() {\n")], "crates/x/src/a.rt:3: { is never closed");
}

#[test]
fn exported_macros_are_imported_by_all_modules_above() {
    let macros =
        "/// Ten.\n#[macro_export]\nmacro_rules! ten {\n    () => {\n        10\n    };\n}\n\nconst X: u8 = ten!();\n";
    let found = crate_of("x", &[], &[("lib", "mod a;\n"), ("a", "mod b;\n"), ("a/b", macros)]).expect("a crate");
    let defined = "/// Ten.\nmacro_rules! ten {\n    () => {\n        10\n    };\n}\n\npub(crate) use ten;\n\nconst X: u8 = ten!();\n}\n";
    assert!(found.contains(defined), "{found}");
    assert!(found.contains("\n}\n\n#[allow(unused_imports)]\npub(crate) use b::{ten};\n}\n"), "{found}");
    assert!(found.ends_with("\n}\n\n#[allow(unused_imports)]\npub(crate) use a::{ten};\n}\n"), "{found}");
}

#[test]
fn macros_of_one_crate_are_known_in_others() {
    let macros = "#[macro_export]\nmacro_rules! ten {\n    () => {\n        10\n    };\n}\n";
    let other = sources("y", &["x"], &[("lib", "use x::ten;\n\nconst X: u8 = ten!();\n")]);
    let found = translate(&[sources("x", &[], &[("lib", macros)]), other]).expect("two crates");
    assert!(found.contains("\n\npub(crate) mod y {\n"), "{found}");
    assert!(found.contains("use crate::crates::x::ten;\n\nconst X: u8 = ten!();\n"), "{found}");
}

#[test]
fn a_program_is_called_with_the_runtime() {
    let found = crate_of("mapf", &[], &[("main", "fn main(rt: HostRuntime) -> ExitCode {\n    f(rt)\n}\n")]);
    let wanted = format!(
        "#[cfg(feature = \"cli\")]\npub(crate) mod mapf {{\n// crates/mapf/src/main.rt\n{PRELUDE}\
         /// Runs the program.\npub fn main_with(rt: HostRuntime) -> ExitCode {{\n    f(rt)\n}}\n}}\n"
    );
    assert_eq!(found, Ok(wanted));
}

#[test]
fn a_function_main_elsewhere_is_none_of_a_program() {
    assert_crate(
        &[("main", "mod a;\n"), ("a", "fn main() {}\n")],
        "pub(crate) mod x {\n// crates/x/src/main.rt\nPRELUDE\nmod a {\n// crates/x/src/a.rt\nPRELUDE\nfn main() {}\n}\n}\n",
    );
}

#[test]
fn what_holds_pointers_is_by_hand() {
    let root = "mod handle;\n// Pointers.\nmod kept;\nmod parts;\nmod solve;\n\npub use handle::Dispatcher;\npub use kept::Kept;\n\
                pub use solve::mapf_solve;\n";
    let solve =
        "/// Solves.\n#[unsafe(no_mangle)]\npub extern \"C\" fn mapf_solve(x: u8)\n    requires { x < 2 }\n{\n}\n";
    let texts = [("lib", root), ("handle", "unsafe"), ("kept", "unsafe"), ("parts", "unsafe"), ("solve", solve)];
    let found = crate_of("mapf_c", &[], &texts).expect("a crate").replace(PRELUDE, "");
    let wanted = "#[cfg(feature = \"c\")]\npub(crate) mod mapf_c {\n// crates/mapf_c/src/lib.rt\n\
                  pub(crate) use crate::c::handle;\n// Pointers.\nmod solve {\n// crates/mapf_c/src/solve.rt\n\
                  /// Solves.\npub fn mapf_solve(x: u8) {\n}\n}\n\npub use handle::Dispatcher;\npub use solve::mapf_solve;\n}\n";
    assert_eq!(found, wanted);
    let missing = [("lib", root), ("handle", ""), ("kept", ""), ("solve", solve)];
    assert_refused("mapf_c", &missing, "crates/mapf_c/src/lib.rt:4: mod parts: there is no file for it");
}

#[test]
fn crates_that_the_package_needs() {
    let list = "# a line\n\na: std\nb: a smallvec\nmapf_c staticlib: b # why\nunused: b\nmapf: a\nmapf_bench: a\nmapf_fuzz: a\n";
    let folder = Folder::with("list", &[("crates.txt", list.as_bytes())]);
    let crates = needed_crates(&folder.0).expect("crates");
    let names: Vec<&str> = crates.iter().map(|it| it.name.as_str()).collect();
    assert_eq!(names, ["a", "b", "mapf_c", "mapf", "mapf_bench", "mapf_fuzz"]);
    assert_eq!(crates[1].uses, ["a", "smallvec"]);
    let features: Vec<Option<&str>> = crates.iter().map(|it| it.feature()).collect();
    assert_eq!(features, [None, None, Some("c"), Some("cli"), Some("cli"), Some("cli")]);
}

#[test]
fn lists_of_crates_that_are_refused() {
    let roots = "mapf:\nmapf_bench:\nmapf_fuzz:\nmapf_c:\n";
    for (list, wanted) in [
        ("mapf", "crates.txt:1: there is no colon"),
        ("\n: a\n", "crates.txt:2: a crate has a name of small letters, digits and underscores"),
        ("../x: a\n", "crates.txt:1: a crate has a name of small letters, digits and underscores"),
        ("a:\nb:\na:\n", "crates.txt:3: there is a crate a above"),
        ("mapf:\n", "crates.txt: there is no crate mapf_bench"),
        (&roots.replace("mapf:", "mapf: tokio"), "crates.txt: there is no crate tokio"),
    ] {
        let folder = Folder::with("lists", &[("crates.txt", list.as_bytes())]);
        assert_eq!(needed_crates(&folder.0).map_err(|why| why.to_string()), Err(wanted.to_owned()));
    }
}

#[test]
fn files_that_can_not_be_read() {
    let folder = Folder::with("bytes", &[("crates/x/src/lib.rt", b"fn f() {}\n// \xff\n"), ("crates/y/src", b"")]);
    let error = needed_crates(&folder.0).expect_err("no list").to_string();
    assert!(error.starts_with("crates.txt: it can't be read: "), "{error}");
    let read = |name| Sources::read(&folder.0, &sources(name, &[], &[]).own).err().map(|why| why.to_string());
    assert_eq!(read("x"), Some("crates/x/src/lib.rt:2: a byte that isn't UTF-8".to_owned()));
    let error = read("y").expect("no folder");
    assert!(error.starts_with("crates/y/src/: it can't be read: "), "{error}");
}

#[test]
fn sources_are_read_with_their_folders() {
    let files: [(&str, &[u8]); 3] =
        [("crates/x/src/lib.rt", b"mod a;"), ("crates/x/src/a/mod.rt", b""), ("crates/x/src/note", b"")];
    let folder = Folder::with("folders", &files);
    let read = Sources::read(&folder.0, &sources("x", &[], &[]).own).expect("sources");
    assert_eq!(read.texts.keys().collect::<Vec<_>>(), ["a/mod", "lib"]);
    assert!(translate(&[read]).is_ok());
}

#[test]
fn the_version_is_the_first_line_of_its_text() {
    let told = |text| version_told(&[sources("mapf_words", &[], &[("command", text)])]).map_err(|why| why.to_string());
    let file = "crates/mapf_words/src/command.rt".to_owned();
    assert_eq!(told("const VERSION: &str = \"1.1.0-dev\nreads 1\";\n"), Ok(("1.1.0-dev".to_owned(), file.clone())));
    assert_eq!(told("// The version.\nconst VERSION: &str = \"2.0.0\";\n"), Ok(("2.0.0".to_owned(), file.clone())));
    assert_eq!(told("const OTHER: &str = \"\";\n"), Err(format!("{file}: there is no text VERSION")));
    assert_eq!(told("const VERSION: &str = (\n"), Err(format!("{file}:1: ( is never closed")));
}
