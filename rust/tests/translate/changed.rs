//! Texts that change, with what becomes of them.
use super::{PRELUDE, assert_changed, crate_of};

#[test]
fn clauses_of_a_function_go() {
    assert_changed(
        "fn f(x: u8) -> u8\n    requires { x < 2 }\n    ensures { result ≡ x }\n{\n    x\n}\n",
        "fn f(x: u8) -> u8 {\n    x\n}\n",
    );
}

#[test]
fn a_clause_goes_with_its_name_and_its_comment() {
    assert_changed(
        "fn f(x: u8) -> u8\n    // Why \"this {\".\n    ensures named { f \"}\" ≡ { x } }\n{\n    x\n}\n",
        "fn f(x: u8) -> u8 {\n    x\n}\n",
    );
    assert_changed("fn f(x: u8)\n    ensures * named { x' }\n{\n}\n", "fn f(x: u8) {\n}\n");
}

#[test]
fn a_comment_in_the_line_of_code_stays_there() {
    assert_changed(
        "fn f(x: u8) -> u8 // One.\n    // Two.\n    ensures { result ≡ x }\n{\n    x\n}\n",
        "fn f(x: u8) -> u8 // One.\n {\n    x\n}\n",
    );
    assert_changed("struct S {\n    x: u8, // One.\n    ghost y: { x },\n}\n", "struct S {\n    x: u8, // One.\n}\n");
}

#[test]
fn a_clause_behind_a_list_of_bounds_goes() {
    assert_changed(
        "fn f<T>(x: T) -> T\nwhere\n    T: Drop,\n    ensures { result ≡ x }\n{\n    x\n}\n",
        "fn f<T>(x: T) -> T\nwhere\n    T: Sized,\n{\n    x\n}\n",
    );
}

#[test]
fn clauses_of_a_closure_go() {
    assert_changed(
        "fn g() {\n    xs.map(|x: u8| -> u8 requires { x < 9 } ensures { result ≡ x } { x });\n}\n",
        "fn g() {\n    xs.map(|x: u8| -> u8 { x });\n}\n",
    );
}

#[test]
fn clauses_of_a_loop_go() {
    assert_changed(
        "fn f() -> bool {\n    while true\n        invariant { a ≡ b }\n        decreases { n }\n    {\n    }\n    true\n}\n",
        "fn f() -> bool {\n    while true {\n    }\n    true\n}\n",
    );
}

#[test]
fn clauses_go_where_lines_end_with_two_characters() {
    assert_changed(
        "fn f(x: u8) -> u8\r\n    // Why.\r\n    requires { x < 2 }\r\n{\r\n    x\r\n}\r\n",
        "fn f(x: u8) -> u8 {\r\n    x\r\n}\n",
    );
}

#[test]
fn a_trait_gets_a_size() {
    assert_changed(
        "trait T {\n    ghost a: { Self → ℕ };\n\n    fn f(&self) -> u8\n        ensures { result ≡ a self.now };\n}\n",
        "trait T: Sized {\n    fn f(&self) -> u8;\n}\n",
    );
    assert_changed("pub trait T: Drop {\n    fn f(&self);\n}\n", "pub trait T: Sized {\n    fn f(&self);\n}\n");
    assert_changed("trait T: Copy {}\n", "trait T: Sized + Copy {}\n");
    assert_changed("trait T: Copy + Drop {}\n", "trait T: Sized + Copy + Sized {}\n");
    assert_changed("trait T<A> {}\n", "trait T<A>: Sized {}\n");
    assert_changed("trait T<A> where A: Drop {}\n", "trait T<A>: Sized where A: Sized {}\n");
}

#[test]
fn bounds_to_be_dropped_become_sizes() {
    assert_changed("fn f<K: Eq + Drop, V: Drop>(x: K) {}\n", "fn f<K: Eq + Sized, V: Sized>(x: K) {}\n");
    assert_changed("fn f<T: Drop + Eq>() {}\n", "fn f<T: Sized + Eq>() {}\n");
}

#[test]
fn imports_for_clauses_go() {
    assert_changed("ghost use A.{◌≡◌, B};\n\nuse crate::x;\n", "use crate::crates::x::x;\n");
}

#[test]
fn ghost_members_go() {
    assert_changed(
        "#[derive(Drop)]\nstruct S {\n    x: u8,\n    ghost small: { x < 2 },\n}\n",
        "struct S {\n    x: u8,\n}\n",
    );
    assert_changed(
        "struct S {\n    x: u8,\n    /// What it is.\n    pub ghost y: { ℕ } by { f } = { x },\n}\n",
        "struct S {\n    x: u8,\n}\n",
    );
    assert_changed("fn f() -> S {\n    S { x: 1, ghost y = { 2 }, }\n}\n", "fn f() -> S {\n    S { x: 1, }\n}\n");
}

#[test]
fn models_go() {
    assert_changed(
        "#[derive(Debug, Drop)]\nstruct S;\n\nimpl Model for S {\n    ghost use A.{B};\n\n    ghost Value = { B };\n}\n",
        "#[derive(Debug)]\nstruct S;\n",
    );
    assert_changed(
        "use std::marker::Model;\n\nstruct S<T>(T);\n\n/// What it stands for.\nimpl<T> std::marker::Model for S<T> {}\n\nfn f() {}\n",
        "struct S<T>(T);\n\nfn f() {}\n",
    );
}

#[test]
fn tactics_go() {
    assert_changed("#![tactic(auto)]\n\n#[tactic(auto)]\nfn f() {}\n", "fn f() {}\n");
}

#[test]
fn macros_with_an_allocator_are_of_the_facade() {
    assert_changed(
        "fn f(a: Global) -> R {\n    vec![in a; 0; 3]\n}\n",
        "fn f(a: Global) -> R {\n    crate::rattle_std::vec_in![a; 0; 3]\n}\n",
    );
    assert_changed(
        "fn f(a: Global) -> R {\n    format!(in a; \"in {{}} {}\", 1)\n}\n",
        "fn f(a: Global) -> R {\n    crate::rattle_std::format_in!(a; \"in {{}} {}\", 1)\n}\n",
    );
}

#[test]
fn macros_with_the_runtime_are_of_the_facade() {
    assert_changed(
        "fn f() -> R {\n    println!(rt; \"{}\", { 1; 2 })\n}\n",
        "fn f() -> R {\n    crate::rattle_std::println_rt!(rt; \"{}\", { 1; 2 })\n}\n",
    );
}

#[test]
fn statements_of_proofs_are_tried_in_debug_builds() {
    assert_changed("fn f() {\n    prove!(1 < 2);\n}\n", "fn f() {\n    debug_assert!(1 < 2);\n}\n");
}

#[test]
fn rules_apply_within_macros() {
    assert_changed(
        "fn f(x: std::cmp::Ordering) -> bool {\n    matches!(x, std::cmp::Ordering::Less | crate::L)\n}\n",
        "fn f(x: std::cmp::Ordering) -> bool {\n    matches!(x, std::cmp::Ordering::Less | crate::crates::x::L)\n}\n",
    );
    assert_changed(
        "macro_rules! m {\n    () => {\n        $crate::f(vec![in a; 1])\n    };\n}\n",
        "macro_rules! m {\n    () => {\n        $crate::crates::x::f(crate::rattle_std::vec_in![a; 1])\n    };\n}\n",
    );
}

#[test]
fn imports_from_libraries_name_what_stands_for_them() {
    assert_changed("use std::{fs, io};\n", "use {crate::rattle_std::fs, std::io};\n");
    assert_changed(
        "use std::alloc::{AllocError, Global as G};\n",
        "use {crate::rattle_std::alloc::AllocError, crate::rattle_std::alloc::Global as G};\n",
    );
    assert_changed(
        "use clap::{Arg, error::{ErrorKind as Kind}};\nuse std::io::{self, Write as _};\n",
        "use {crate::rattle_std::clap::Arg, crate::rattle_std::clap::error::ErrorKind as Kind};\n\
         use {std::io, std::io::Write as _};\n",
    );
    assert_changed("use std::cmp::Ordering::Less;\n", "use std::cmp::Ordering::Less;\n");
}

#[test]
fn imports_of_which_nothing_is_left_go() {
    assert_changed("use std::marker::Model;\nuse thiserror::Error;\n\nfn f() {}\n", "fn f() {}\n");
}

#[test]
fn paths_into_crates_begin_at_their_modules() {
    assert_changed(
        "use crate::a::{B, C};\nuse mapf_model::Cell;\nuse mapf_model as model;\n",
        "use crate::crates::x::a::{B, C};\nuse crate::crates::mapf_model::Cell;\nuse crate::crates::mapf_model as model;\n",
    );
    assert_changed(
        "pub(in crate::a) fn f(x: mapf_model::Cell) -> crate::B {}\n",
        "pub(in crate::crates::x::a) fn f(x: crate::crates::mapf_model::Cell) -> crate::crates::x::B {}\n",
    );
}

#[test]
fn clones_that_may_fail_are_tried() {
    assert_changed(
        "fn f(v: &Vec<u8>) -> R {\n    v.clone()?\n}\n",
        "fn f(v: &Vec<u8>) -> R {\n    v.try_clone()?\n}\n",
    );
}

#[test]
fn texts_that_are_made_with_an_allocator() {
    assert_changed(
        "fn f(rt: &R, x: E) -> R {\n    (x.to_string(rt.alloc())?, x.to_string(alloc), x.to_string(other))\n}\n",
        "fn f(rt: &R, x: E) -> R {\n    (x.to_string_in(rt.alloc())?, x.to_string_in(alloc), x.to_string(other))\n}\n",
    );
}

#[test]
fn formatters_hide_their_writer() {
    assert_changed(
        "fn fmt<W: fmt::Write>(&self, f: &mut fmt::Formatter<W>) -> fmt::Result {}\n",
        "fn fmt(&self, f: &mut fmt::Formatter<'_>) -> fmt::Result {}\n",
    );
}

#[test]
fn errors_are_shown_by_their_words() {
    let found = crate_of(
        "x",
        &["thiserror"],
        &[(
            "lib",
            "use thiserror::Error;\n\n#[derive(Debug, Error)]\npub enum Fault {\n    /// One.\n    #[error(\"one: {0:?}\")]\n    \
             One(u8),\n    #[error(\"two\")]\n    Two,\n}\n",
        )],
    );
    let wanted = format!(
        "pub(crate) mod x {{\n// crates/x/src/lib.rt\n{PRELUDE}#[derive(Debug)]\npub enum Fault {{\n    /// One.\n    \
         One(u8),\n    Two,\n}}\n\n\
         impl std::fmt::Display for Fault {{\n    fn fmt(&self, f: &mut std::fmt::Formatter<'_>) -> std::fmt::Result {{\n        \
         match self {{\n            Self::One(of) => write!(f, \"one: {{of:?}}\"),\n            \
         Self::Two => write!(f, \"two\"),\n        }}\n    }}\n}}\n\n\
         impl std::error::Error for Fault {{}}\n}}\n"
    );
    assert_eq!(found, Ok(wanted));
}
