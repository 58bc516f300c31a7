//! Tokens.
use super::translate::tokens::{Kind, tokens};

fn kinds(text: &str) -> Vec<(Kind, &str)> {
    let found = tokens("x", text).expect("tokens");
    assert_eq!(found.iter().map(|token| token.text).collect::<String>(), text);
    let told = found.iter().filter(|token| token.kind != Kind::Blank);
    told.map(|token| (token.kind, token.text)).collect()
}

#[test]
fn words_numbers_and_signs() {
    let wanted = [
        (Kind::Word, "x1"),
        (Kind::Mark, "::"),
        (Kind::Word, "λ₁"),
        (Kind::Mark, "->"),
        (Kind::Other, "1.5e3"),
        (Kind::Mark, "≡"),
        (Kind::Other, "0"),
        (Kind::Mark, "."),
        (Kind::Mark, "."),
        (Kind::Other, "0x1f"),
    ];
    assert_eq!(kinds("x1::λ₁ -> 1.5e3≡ 0..0x1f"), wanted);
}

#[test]
fn strings_with_prefixes() {
    for text in ["\"\"", "b\"\\\"\"", "c\"x\"", "r\"\\\"", "br##\"\"#\"##", "cr#\"}\"#", "\"\\\\\""] {
        assert_eq!(kinds(text), [(Kind::Text, text)]);
    }
}

#[test]
fn words_that_begin_like_prefixes() {
    for text in ["b", "r", "br", "cr", "bright", "c", "rb"] {
        assert_eq!(kinds(text), [(Kind::Word, text)]);
    }
}

#[test]
fn characters_and_lifetimes() {
    for text in ["'a'", "'\\''", "'\\\\'", "b'\"'", "'\\u{1_f600}'", "'λ'", "'a", "'static", "'_"] {
        assert_eq!(kinds(text), [(Kind::Other, text)]);
    }
    assert_eq!(kinds("' '"), [(Kind::Other, "' '")]);
    assert_eq!(kinds("' x"), [(Kind::Mark, "'"), (Kind::Word, "x")]);
}

#[test]
fn comments_of_three_kinds() {
    let wanted =
        [(Kind::InnerDoc, "//! a"), (Kind::OuterDoc, "/// b"), (Kind::Comment, "// c"), (Kind::Comment, "//// d")];
    assert_eq!(kinds("//! a\n/// b\n// c\n//// d"), wanted);
}

#[test]
fn lines_are_counted_in_literals_and_blanks() {
    let found = tokens("x", "a\n\n\"b\nc\" d\r\ne").expect("tokens");
    let lines: Vec<(usize, &str)> = found.iter().map(|token| (token.line, token.text.trim())).collect();
    assert_eq!(lines, [(1, "a"), (1, ""), (3, "\"b\nc\""), (4, ""), (4, "d"), (4, ""), (5, "e")]);
}
