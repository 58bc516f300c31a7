//! The sources of the repository.
use super::translate::tokens::{Kind, tokens};
use super::translate::{Sources, needed_crates, translate};
use std::path::Path;

/// Files of which the code is written by hand.
const BY_HAND: [&str; 3] = ["handle", "kept", "parts"];

pub fn all_sources() -> Vec<Sources> {
    let top = Path::new(env!("CARGO_MANIFEST_DIR"));
    let crates = needed_crates(top).expect("a list of crates");
    crates.iter().map(|own| Sources::read(top, own).expect("sources")).collect()
}

/// The texts of the code of a file.
fn code(text: &str) -> Vec<&str> {
    let tokens = tokens("x", text).expect("tokens");
    tokens.iter().filter(|token| token.kind.is_code()).map(|token| token.text).collect()
}

/// The names of all functions of a text.
fn functions(text: &str) -> Vec<&str> {
    let code = code(text);
    let named = code.windows(2).filter(|pair| pair[0] == "fn" && pair[1] != "(");
    named.map(|pair| pair[1]).collect()
}

#[test]
fn tokens_give_each_file_back() {
    for text in all_sources().iter().flat_map(|sources| sources.texts.values()) {
        let tokens = tokens("x", text).expect("tokens");
        assert_eq!(tokens.iter().map(|token| token.text).collect::<String>(), *text);
    }
}

#[test]
fn each_function_is_left_and_no_other() {
    let all = all_sources();
    let mut wanted = vec!["fmt"]; // It shows the errors of `mapf_app`.
    for sources in &all {
        let is_by_hand = |place: &str| sources.own.name == "mapf_c" && BY_HAND.contains(&place);
        for (_, text) in sources.texts.iter().filter(|(place, _)| !is_by_hand(place)) {
            wanted.extend(functions(text));
        }
    }
    for name in wanted.iter_mut().filter(|name| **name == "main") {
        *name = "main_with";
    }
    let text = translate(&all).expect("the crates");
    let mut found = functions(&text);
    wanted.sort_unstable();
    found.sort_unstable();
    assert_eq!(found, wanted);
    assert!(found.len() > 1_000, "{}", found.len());
    assert_eq!(found.iter().filter(|name| **name == "main_with").count(), 3);
}

#[test]
fn each_file_stands_below_its_name() {
    let all = all_sources();
    let text = translate(&all).expect("the crates");
    for sources in &all {
        for place in sources.texts.keys() {
            let is_by_hand = sources.own.name == "mapf_c" && BY_HAND.contains(&place.as_str());
            let count = text.matches(&format!(" {{\n// crates/{}/src/{place}.rt\n", sources.own.name)).count();
            assert_eq!(count, usize::from(!is_by_hand), "{place} of {}", sources.own.name);
        }
    }
}

#[test]
fn nothing_of_a_contract_is_left_in_code() {
    let text = translate(&all_sources()).expect("the crates");
    let tokens = tokens("x", &text).expect("tokens");
    for token in tokens.iter().filter(|token| token.kind.is_code() && token.kind != Kind::Text) {
        let is_of_contract =
            matches!(token.text, "requires" | "ensures" | "ghost" | "invariant" | "decreases" | "tactic");
        assert!(!is_of_contract, "line {}: {}", token.line, token.text);
    }
}
