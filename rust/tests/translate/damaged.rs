//! Damaged texts. Each is translated or refused, and neither ends in a panic.
use super::repository::all_sources;
use super::translate::tokens::{Kind, tokens};
use super::{Refused, crate_of};

/// How many texts are tried, unless the variable `DAMAGED_TEXTS` says another number.
const TEXTS: u64 = 2_000;

/// Pieces that are put into texts, with a line for each.
const PIECES: &str = "requires
ensures { x }
ensures named {
decreases { x }
invariant
ghost
ghost use A;
ghost x: { y },
pub ghost x = { y };
by {
pub
{
}
(
)
[
]
<
>
;
,
:
::
->
..
!
#
#![
#[inline]
#[derive(Drop)]
#[derive(Error)]
#[error(\"{0}\")]
#[tactic(x)]
#[macro_export]
#[unsafe(no_mangle)]
macro_rules! m { () => {} }
impl
impl Model for S { ghost x: { y }; }
for
Drop
+ Drop
trait
fn
main(
use
use std::{fs, io};
use std::marker::Model;
mod
mod a;
crate
std::
std::io::Write
::std
mapf_model::
vec![in alloc; 1]
println!(rt;
.clone()?
.to_string(alloc)
<W: fmt::Write>
\"
'
r#\"
//
// x
/*
\\
λ
≡";

/// Numbers of the generator SplitMix64.
struct Numbers(u64);

impl Numbers {
    /// A number below a bound.
    fn below(&mut self, bound: usize) -> usize {
        self.0 = self.0.wrapping_add(0x9e37_79b9_7f4a_7c15);
        let mut mixed = self.0;
        mixed = (mixed ^ (mixed >> 30)).wrapping_mul(0xbf58_476d_1ce4_e5b9);
        mixed = (mixed ^ (mixed >> 27)).wrapping_mul(0x94d0_49bb_1331_11eb);
        ((mixed ^ (mixed >> 31)) % bound as u64) as usize
    }

    /// A place between two characters of a text.
    fn place(&mut self, text: &str) -> usize {
        let wanted = self.below(text.len() + 1);
        (wanted..=text.len()).find(|&place| text.is_char_boundary(place)).unwrap_or(0)
    }
}

/// A text or some of its lines, with some damage.
fn damaged(text: &str, numbers: &mut Numbers) -> String {
    let lines: Vec<&str> = text.split_inclusive('\n').collect();
    let is_whole = numbers.below(4) > 0;
    let first = if is_whole { 0 } else { numbers.below(lines.len().max(1)) };
    let count = if is_whole { lines.len() } else { 1 + numbers.below(60) };
    let mut text: String = lines.into_iter().skip(first).take(count).collect();
    for _ in 0..numbers.below(5) {
        text = match numbers.below(3) {
            0 => with_other_characters(text, numbers),
            _ => with_other_tokens(&text, numbers),
        };
    }
    text
}

/// A text of which some characters are removed or repeated.
fn with_other_characters(mut text: String, numbers: &mut Numbers) -> String {
    let (begin, most) = (numbers.place(&text), numbers.below(40));
    let end = begin + text[begin..].chars().take(most).map(char::len_utf8).sum::<usize>();
    if numbers.below(2) == 0 {
        text.replace_range(begin..end, "");
    } else {
        text.replace_range(begin..begin, &text[begin..end].repeat(2));
    }
    text
}

/// A text in which a piece or a token of the text stands before another token, or instead of it.
fn with_other_tokens(text: &str, numbers: &mut Numbers) -> String {
    let Ok(tokens) = tokens("x", text) else {
        return text.to_owned();
    };
    let mut parts: Vec<&str> = tokens.iter().map(|token| token.text).collect();
    let (place, from) = (numbers.below(parts.len() + 1), numbers.below(parts.len() + 1));
    let pieces: Vec<&str> = PIECES.lines().collect();
    let part = match numbers.below(2) {
        0 => parts.get(from).copied().unwrap_or_default(),
        _ => pieces[numbers.below(pieces.len())],
    };
    let count = numbers.below(2).min(parts.len() - place);
    parts.splice(place..place + count, [" ", part, " "]);
    parts.concat()
}

fn check(text: &str, found: Result<String, Refused>) {
    match found {
        Ok(found) => {
            let tokens = tokens("x", &found).expect("tokens");
            for word in tokens.iter().filter(|token| token.kind == Kind::Word).map(|token| token.text) {
                assert!(
                    !matches!(word, "requires" | "ensures" | "ghost") && word.is_ascii(),
                    "{text}\n--- came\n{found}"
                );
            }
        }
        Err(why) => {
            assert!(why.line.is_some_and(|line| line <= text.lines().count().max(1)), "{why}\n{text}");
            assert!(!why.to_string().contains('\n') && !why.why.is_empty(), "{why:?}");
        }
    }
}

#[test]
fn damaged_texts_are_translated_or_refused() {
    let sources = all_sources();
    let crates: Vec<&str> = sources.iter().map(|sources| sources.own.name.as_str()).collect();
    let texts: Vec<&str> = sources.iter().flat_map(|sources| sources.texts.values().map(String::as_str)).collect();
    let count = std::env::var("DAMAGED_TEXTS").map_or(TEXTS, |number| number.parse().expect("a number"));
    let mut accepted = 0;
    for seed in 0..count {
        let mut numbers = Numbers(seed);
        let text = damaged(texts[numbers.below(texts.len())], &mut numbers);
        let found = crate_of("x", &crates, &[("lib", &text)]);
        accepted += u64::from(found.is_ok());
        check(&text, found);
    }
    assert!(0 < accepted && accepted < count, "{accepted} of {count}");
}

#[test]
fn deep_and_long_texts_end() {
    let count = 5_000;
    for (open, close) in [
        ("{", "}"),
        ("f<", ">"),
        ("fn f<", ">"),
        ("fn f() requires {", "} {}"),
        ("ghost x: {", "},"),
        ("impl Model for S {", "}"),
        ("impl A<", "> for B {}"),
        ("trait T: A<", "> {}"),
        ("trait T<", "> {}"),
        ("#[inline(", ")]"),
        ("#[derive(", ")]"),
        ("vec![in a;", "]"),
        ("println!(rt;", ")"),
        ("use {", "};"),
        ("std::{", "}"),
        ("[] impl ", ""),
        ("use a ", ";"),
        ("ghost use a ", ";"),
        ("x.to_string(a.a", ")"),
        ("// a\n", ""),
        ("#[derive(Error)] ", ""),
    ] {
        let text = format!("fn f() {{ {}{} }}\n", open.repeat(count), close.repeat(count));
        check(&text, crate_of("x", &[], &[("lib", &text)]));
        let text = format!("use std::{}{};\n", open.repeat(count), close.repeat(count));
        check(&text, crate_of("x", &[], &[("lib", &text)]));
    }
}
