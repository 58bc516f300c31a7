//! Texts that stay as they are.
use super::assert_kept;

#[test]
fn words_of_contracts_in_a_string() {
    assert_kept("fn f() -> &'static str {\n    \"requires { ensures } ghost x = {\"\n}\n");
}

#[test]
fn lifetimes_and_brackets_in_characters() {
    assert_kept("fn f<'a>(x: &'a str) -> char {\n    if x.is_empty() { '{' } else { '\\'' }\n}\n");
}

#[test]
fn raw_byte_strings() {
    assert_kept("fn f() -> &'static [u8] {\n    br#\"ghost use \"}{\" ensures {\"#\n}\n");
}

#[test]
fn raw_strings_with_backslashes_and_hashes() {
    assert_kept("const A: &str = r\"\\\";\nconst B: &str = r##\"}\"# ghost\"##;\nconst C: &str = r#\"\"#;\n");
}

#[test]
fn strings_with_escaped_quotes_and_line_ends() {
    assert_kept("const TEXT: &str = \"one\\\n    // two { \\\" }\";\n");
    assert_kept("const TEXT: &str = \"\\\\\";\nconst BYTES: &[u8] = b\"\\\"{\";\n");
}

#[test]
fn words_of_contracts_in_comments() {
    assert_kept("// requires { not code\nfn f() {}\n");
    assert_kept("//// ghost {\n/// ensures λ }\nfn f() {}\n");
    assert_kept("//! A doc comment with a { and with ghost.\n\nfn f() {}\n");
}

#[test]
fn negations_before_brackets() {
    assert_kept("fn f(x: u8) -> bool {\n    !(x > 1)\n}\n");
    assert_kept("fn f(x: u8) -> u8 {\n    if !(x > 1) { 0 } else { x }\n}\n");
    assert_kept("fn f(x: u8) -> bool {\n    return !(x > 1);\n}\n");
    assert_kept("fn f(x: u8) -> bool {\n    match !(x > 1) {\n        y => y,\n    }\n}\n");
}

#[test]
fn bytes_and_escaped_characters() {
    assert_kept("fn f() -> (u8, char) {\n    (b'}', '\\u{1b}')\n}\n");
    assert_kept("fn f() -> [char; 5] {\n    ['\\\\', '\\x7b', '\"', 'λ', '\\n']\n}\n");
}

#[test]
fn numbers_with_dots() {
    assert_kept("fn f(x: (u8, (u8, u8))) -> u8 {\n    x.1.0\n}\n");
    assert_kept("fn f() {\n    for _ in 0..10 {}\n}\n");
    assert_kept("fn f() -> u32 {\n    1.max(0x1f_u32) + 1_000\n}\n");
    assert_kept("fn f() -> f64 {\n    1.5e3 + 2.0\n}\n");
}

#[test]
fn macros_of_the_sources() {
    assert_kept("macro_rules! words {\n    ($x:expr) => {\n        $x\n    };\n}\n\nconst X: u8 = words!(1);\n");
}

#[test]
fn fields_called_like_clauses_of_loops() {
    assert_kept("fn f(x: S) -> u8 {\n    x.invariant + x.decreases\n}\n");
}

#[test]
fn attributes_and_derives_of_rust() {
    assert_kept("#[inline(always)]\n#[must_use]\nfn f() {}\n\n#[repr(C)]\n#[derive(Clone, Copy, Debug)]\nstruct S;\n");
}

#[test]
fn names_of_refused_words_behind_dots_and_colons() {
    assert_kept("fn f(x: S) -> u8 {\n    x.thread + S::union(x.axiom)\n}\n");
}

#[test]
fn implementations_and_methods() {
    assert_kept("impl<'a, T: Copy> Iterator for Walk<'a, T> {\n    type Item = T;\n}\n");
    assert_kept("fn f(x: &S) -> String {\n    x.clone().to_string()\n}\n");
    assert_kept("fn f(x: Option<u8>) -> u8 {\n    x.expect(\"one\")\n}\n");
}

#[test]
fn paths_below_a_type_in_generics() {
    assert_kept("fn f<I: Iterator>(x: Vec<I::Item>) -> Vec<u8> {\n    <Vec<u8> as From<Vec<I::Item>>>::from(x)\n}\n");
}

#[test]
fn line_ends_of_two_characters() {
    assert_kept("//! Doc.\r\n\r\n// A comment.\r\nfn f() -> &'static str {\r\n    \"a\r\nb\"\r\n}\n");
}

#[test]
fn visibility_in_the_crate() {
    assert_kept("pub(crate) struct S {\n    pub(super) x: u8,\n}\n");
}
