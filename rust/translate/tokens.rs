//! Splits a text in Rattle into tokens. Put together they are the text again, byte for byte.
//!
//! The tokens are Rust's, as far as the rules tell them apart. Contracts have signs of a logic too, each of which is a
//! token; that none stands in code is for the rules to see.
use super::refused::Refused;

/// What a token is.
#[derive(Clone, Copy, Debug, PartialEq, Eq)]
pub enum Kind {
    /// Blanks and line ends.
    Blank,
    /// A doc comment of what it stands in: `//! ..`.
    InnerDoc,
    /// A doc comment of what stands below it: `/// ..`.
    OuterDoc,
    /// Another comment: `// ..`.
    Comment,
    /// A string literal of any kind: `"..", b"..", r#".."#`.
    Text,
    /// A character, a byte, a number or a lifetime.
    Other,
    /// A word: a name or a keyword.
    Word,
    /// A sign: `::`, `->`, `=>`, or any other character.
    Mark,
}

impl Kind {
    /// Whether a token of this kind is a comment, which ends where its line does.
    pub fn is_comment(self) -> bool {
        matches!(self, Kind::InnerDoc | Kind::OuterDoc | Kind::Comment)
    }

    /// Whether a token of this kind is code: neither a blank nor a comment.
    pub fn is_code(self) -> bool {
        self != Kind::Blank && !self.is_comment()
    }
}

/// A token of a text.
#[derive(Clone, Copy, Debug)]
pub struct Token<'a> {
    /// What it is.
    pub kind: Kind,
    /// How it is written.
    pub text: &'a str,
    /// The line in which it begins, counted from 1.
    pub line: usize,
}

/// Splits the text of a file into its tokens. A literal that isn't closed is refused, and so is a comment `/* .. */`.
pub fn tokens<'a>(file: &str, text: &'a str) -> Result<Vec<Token<'a>>, Refused> {
    let mut found = Vec::with_capacity(text.len() / 4);
    let mut rest = text;
    let mut line = 1;
    while let Some(first) = rest.chars().next() {
        let (kind, length) = first_token(rest, first).map_err(|why| Refused::at(file, line, why))?;
        let (text, behind) = rest.split_at(length);
        found.push(Token { kind, text, line });
        line += text.bytes().filter(|&byte| byte == b'\n').count();
        rest = behind;
    }
    Ok(found)
}

/// The kind and the length of the token at the head of a text, whose first character is given.
fn first_token(rest: &str, first: char) -> Result<(Kind, usize), &'static str> {
    if first.is_ascii_whitespace() {
        return Ok((Kind::Blank, front(rest, |sign| sign.is_ascii_whitespace())));
    }
    if rest.starts_with("//") {
        return Ok((comment_kind(rest), front(rest, |sign| sign != '\n')));
    }
    if rest.starts_with("/*") {
        return Err("/* .. */: comments of this kind aren't known here");
    }
    if let Some(length) = text_length(rest)? {
        return Ok((Kind::Text, length));
    }
    if let Some(length) = char_length(rest).or_else(|| lifetime_length(rest)) {
        return Ok((Kind::Other, length));
    }
    if first.is_ascii_digit() {
        return Ok((Kind::Other, number_length(rest)));
    }
    if is_in_word(first) {
        return Ok((Kind::Word, front(rest, is_in_word)));
    }
    let is_double = ["::", "->", "=>"].iter().any(|mark| rest.starts_with(mark));
    Ok((Kind::Mark, if is_double { 2 } else { first.len_utf8() }))
}

/// The length of the part at the head of a text of which each character passes the test.
fn front(text: &str, test: impl Fn(char) -> bool) -> usize {
    text.find(|sign| !test(sign)).unwrap_or(text.len())
}

/// Whether a character may be in a word.
pub fn is_in_word(sign: char) -> bool {
    sign == '_' || sign.is_alphanumeric()
}

fn comment_kind(rest: &str) -> Kind {
    if rest.starts_with("//!") {
        Kind::InnerDoc
    } else if rest.starts_with("///") && !rest.starts_with("////") {
        Kind::OuterDoc
    } else {
        Kind::Comment
    }
}

/// The length of a string literal with its prefix, if there is one.
fn text_length(text: &str) -> Result<Option<usize>, &'static str> {
    let body = text.strip_prefix(['b', 'c']).unwrap_or(text);
    let raw = body.strip_prefix('r');
    let hashes = raw.map_or(0, |raw| front(raw, |sign| sign == '#'));
    let Some(body) = raw.unwrap_or(body)[hashes..].strip_prefix('"') else {
        return Ok(None);
    };
    let mut is_escaped = false;
    let end = match raw {
        Some(_) => body.find(&format!("\"{}", "#".repeat(hashes))),
        None => body.find(|sign| {
            let is_end = sign == '"' && !is_escaped;
            is_escaped = sign == '\\' && !is_escaped;
            is_end
        }),
    };
    let end = end.ok_or("a string is never closed")?;
    Ok(Some(text.len() - body.len() + end + 1 + hashes))
}

/// The length of a character or a byte in quotes, if there is one.
fn char_length(text: &str) -> Option<usize> {
    let body = text.strip_prefix('b').unwrap_or(text).strip_prefix('\'')?;
    let mut signs = body.chars();
    match signs.next()? {
        '\'' | '\n' => return None,
        '\\' => _ = signs.next()?,
        _ => return Some(text.len() - signs.as_str().strip_prefix('\'')?.len()),
    }
    let is_in_escape = |sign: char| sign.is_ascii_alphanumeric() || matches!(sign, '{' | '}' | '_');
    let rest = signs.as_str().trim_start_matches(is_in_escape);
    Some(text.len() - rest.strip_prefix('\'')?.len())
}

fn lifetime_length(text: &str) -> Option<usize> {
    let name = text.strip_prefix('\'')?;
    let length = front(name, is_in_word);
    (length > 0).then_some(1 + length)
}

fn number_length(text: &str) -> usize {
    let whole = front(text, is_in_word);
    match text[whole..].strip_prefix('.') {
        Some(part) if part.starts_with(|sign: char| sign.is_ascii_digit()) => whole + 1 + front(part, is_in_word),
        _ => whole,
    }
}
