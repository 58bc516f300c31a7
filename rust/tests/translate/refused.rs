//! Texts that are refused, with the line and a word of the reason that are told.
use super::translate::translator::REFUSED_WORDS;
use super::{assert_refused, crate_of};

#[test]
fn a_word_of_clauses_as_a_name() {
    assert_refused("fn f(invariant: u8) -> u8 {\n    invariant\n}\n", 1, "invariant: no clause");
    assert_refused("fn ensures() {}\n", 1, "ensures: no clause");
    assert_refused("fn f()\n    requires x < 2\n{}\n", 2, "requires: no clause");
    assert_refused("fn f() {\n    while x decreases { y }\n        ensures\n", 1, "never closed");
}

#[test]
fn a_sign_or_a_word_of_proofs_in_code() {
    assert_refused("fn f() { let x = λ; }\n", 1, "λ: a word of proofs");
    assert_refused("fn f() {\n    x ≡ y\n}\n", 2, "≡: a sign");
    assert_refused("fn f() {\n    x.λ\n}\n", 2, "λ");
    assert_refused("fn f() {\n    x' + 1\n}\n", 2, "': a sign");
    assert_refused("\u{feff}fn f() {}\n", 1, "a sign");
}

#[test]
fn a_ghost_member_of_another_form() {
    assert_refused("struct S {\n    ghost x { 1 },\n}\n", 2, "ghost: no member");
    assert_refused("struct S {\n    ghost x: { 1 }\n}\n", 2, "ghost: no member");
    assert_refused("ghost fn f() {}\n", 1, "ghost: no member");
    assert_refused("fn f() {\n    ghost use A\n}\n", 2, "there is no ;");
}

#[test]
fn what_is_dropped_by_hand() {
    assert_refused("impl Drop for S {\n    fn drop(self) {}\n}\n", 1, "impl Drop");
    assert_refused("fn f(x: impl Drop) {}\n", 1, "Drop: no bound");
    assert_refused("fn f() {\n    Drop::drop(x)\n}\n", 2, "Drop: no bound");
}

#[test]
fn a_model_with_code() {
    assert_refused("impl Model for S {\n    fn f() {}\n}\n", 2, "more than ghost members");
}

#[test]
fn an_attribute_of_what_goes() {
    assert_refused("#[allow(x)]\nimpl Model for S {}\n", 1, "an attribute");
    assert_refused("struct S {\n    #[doc = \"x\"]\n    ghost x: { 1 },\n}\n", 2, "an attribute");
    assert_refused("#[allow(x)]\nuse std::marker::Model;\n", 1, "an attribute");
}

#[test]
fn other_attributes_and_derives() {
    assert_refused("#[repr(C)]\n#[packed]\nstruct S;\n", 2, "packed: no attribute");
    assert_refused("#[cfg(test)]\nmod tests;\n", 1, "cfg: no attribute");
    assert_refused("fn f() {}\n\n#[test]\nfn g() {}\n", 3, "test: no attribute");
    assert_refused("#[unsafe(no_mangle)]\npub extern \"C\" fn f() {}\n", 1, "by hand");
    assert_refused("# fn f() {}\n", 1, "no attribute");
    assert_refused("#[derive(Serialize)]\nstruct S;\n", 1, "Serialize: no derive");
    assert_refused("#[derive]\nstruct S;\n", 1, "derive: not known");
}

#[test]
fn errors_of_another_form() {
    assert_refused("#[derive(Error)]\nstruct S;\n", 2, "Error: known only for one enum");
    assert_refused("#[derive(Error)]\nenum S {}\n#[derive(Error)]\nenum T {}\n", 4, "Error: known only for one enum");
    assert_refused("enum S {\n    #[error(transparent)]\n    A,\n}\n", 2, "error: known only");
    assert_refused("enum S {\n    #[error(\"a {}\", x)]\n    A,\n}\n", 2, "error: known only");
    assert_refused("enum S {\n    #[error(\"{{0}}\")]\n    A(u8),\n}\n", 2, "error: known only");
}

#[test]
fn items_of_libraries_that_nothing_stands_for() {
    assert_refused("use std::rc::Rc;\n", 1, "std::rc::Rc");
    assert_refused("use std::thread;\n", 1, "std::thread");
    assert_refused("use std::collections::*;\n", 1, "*");
    assert_refused("use std::collections::LinkedList;\n", 1, "std::collections::LinkedList");
    assert_refused("use std::fs::Metadata;\nuse std::mem::size_of;\n", 2, "std::mem::size_of");
    assert_refused("use anyhow;\n", 1, "anyhow");
    assert_refused("fn f() {\n    core::mem::swap(x, y)\n}\n", 2, "core::mem::swap");
    assert_refused("fn f() {\n    std::io::stdin()\n}\n", 2, "std::io::stdin");
    assert_refused("use {std::{fs, io}, crate::x};\n", 1, "std");
}

#[test]
fn imports_of_another_form() {
    assert_refused("pub use std::fs;\n", 1, "pub use");
    assert_refused("pub(crate) use std::fs;\n", 1, "pub use");
    assert_refused("use std::{fs io};\n", 1, "io");
    assert_refused("use std::fs as a::b;\n", 1, "::");
    assert_refused("use ::std::fs;\n", 1, "::");
    assert_refused("fn f() {\n    ::std::process::abort()\n}\n", 2, "::");
    assert_refused("fn f() {}\nuse std::fs\n", 2, "there is no ;");
}

#[test]
fn crates_that_this_one_does_not_stand_on() {
    assert_refused("use mapf_text::Map;\n", 1, "mapf_text: no crate that x stands on");
    assert_refused("use crate as own;\n", 1, "crate: known only");
}

#[test]
fn macros_without_an_allocator_or_the_runtime() {
    assert_refused("fn f() { panic!(rt; \"x\"); }\n", 1, "panic!");
    assert_refused("fn f() { format!(\"x\"); }\n", 1, "format!: no allocator");
    assert_refused("fn f() { vec![0; 3]; }\n", 1, "vec!: no allocator");
    assert_refused("fn f() {\n    println!(\"x {}\", { 1; 2 });\n}\n", 2, "println!: no runtime");
}

#[test]
fn other_macros() {
    assert_refused("fn f() { eprintln!(rt; \"x\"); }\n", 1, "eprintln!");
    assert_refused("fn f() {\n    assert!(rt; x);\n}\n", 2, "assert!");
    assert_refused("#[macro_export]\nfn f() {}\n", 1, "macro_export");
    assert_refused("fn f() {\n    #[macro_export]\n    macro_rules! m {\n    }\n}\n", 2, "macro_export");
}

#[test]
fn each_word_that_means_something_else() {
    assert_refused("fn f() { for _ in forever() {} }\n", 1, "forever");
    assert_refused("fn f(x: &dyn T) {}\n", 1, "dyn");
    assert_refused("unsafe fn f() {}\n", 1, "unsafe");
    assert_refused("extern \"C\" fn f() {}\n", 1, "extern");
    assert_refused("trait T {\n    final fn f(&self) {}\n}\n", 2, "final");
    for word in REFUSED_WORDS.split(' ') {
        assert_refused(&format!("fn f() {{\n    ({word})\n}}\n"), 2, word);
    }
}

#[test]
fn brackets_that_do_not_match() {
    assert_refused("fn f() {\n", 1, "{ is never closed");
    assert_refused("fn f() {\n    (\n", 2, "( is never closed");
    assert_refused("fn f() { ) }\n", 1, ") closes nothing");
    assert_refused("fn f() {}\n\n}\n", 3, "} closes nothing");
    assert_refused("fn f<T(x: T) {}\n", 1, "< is never closed");
}

#[test]
fn literals_that_are_not_closed() {
    assert_refused("fn f() {}\nconst X: &str = \"one\n;\n", 2, "never closed");
    assert_refused("const X: &str = \"one\\\"\n;\n", 1, "never closed");
    assert_refused("const X: &str = r#\"one\"\n;\n", 1, "never closed");
}

#[test]
fn comments_with_stars() {
    assert_refused("/* block */ fn f() {}\n", 1, "/* .. */");
    assert_refused("fn f()\n    ensures { a /* b */ }\n{}\n", 2, "/* .. */");
}

#[test]
fn traits_and_formatters_of_another_form() {
    assert_refused("trait T = Eq;\n", 1, "trait: not known");
    assert_refused("fn fmt<A, W: fmt::Write>(f: Formatter<W>) {}\n", 1, "W: fmt::Write");
    assert_refused("fn fmt<W: fmt::Write>(f: &mut W) {}\n", 1, "W: fmt::Write");
}

#[test]
fn modules_in_other_places_than_files() {
    assert_refused("mod a {\n}\n", 1, "mod: known only");
    assert_refused("fn f() {\n    mod a;\n}\n", 2, "mod: known only");
}

#[test]
fn a_main_function_that_takes_something_else() {
    let refused = crate_of("x", &[], &[("main", "\nfn main() {}\n")]).expect_err("no runtime");
    assert_eq!(refused.to_string(), "crates/x/src/main.rt:2: main: it has to take rt: HostRuntime, and nothing else");
}

#[test]
fn a_reason_is_one_line() {
    assert_refused("#[\"a\n  b\"]\nfn f() {}\n", 1, "\"a b\": no attribute");
}
