//! Puts a text together from the tokens that are left. What stood apart stays apart.
use super::tokens::{Kind, is_in_word};

/// A text so far.
#[derive(Default)]
pub struct Output {
    text: String,
    last: Option<Kind>,
    // Whether what stands last opens a block, or is the head of the file.
    is_at_head: bool,
}

impl Output {
    /// Writes a token. The blanks before it may be gone; then a comment still ends where its line does, and two words
    /// stay two. Empty lines at the head of a block go, since they were below something that is gone.
    pub fn push(&mut self, kind: Kind, token: &str) {
        if self.last.is_some_and(Kind::is_comment) && !token.starts_with(['\n', '\r']) {
            self.text.push('\n');
        } else if self.text.ends_with(is_in_word) && token.starts_with(is_in_word) {
            self.text.push(' ');
        }
        let is_only_line_kept = kind == Kind::Blank && self.is_at_head;
        self.text.push_str(if is_only_line_kept { last_line(token) } else { token });
        self.last = Some(kind);
        self.is_at_head = kind == Kind::Mark && token == "{";
    }

    /// Writes whole lines.
    pub fn push_lines(&mut self, lines: &str) {
        if !self.text.is_empty() && !self.text.ends_with('\n') {
            self.text.push('\n');
        }
        self.text.push_str(lines);
        self.last = Some(Kind::Blank);
        self.is_at_head = true;
    }

    /// The text, with one line end at its end.
    pub fn end(self) -> String {
        format!("{}\n", self.text.trim_end())
    }
}

/// The last of the line ends in blanks, with what follows it.
fn last_line(blanks: &str) -> &str {
    let lines = blanks.rsplit_once('\n').map_or("", |(lines, _)| lines);
    &blanks[lines.rfind('\n').map_or(0, |line_end| line_end + 1)..]
}
