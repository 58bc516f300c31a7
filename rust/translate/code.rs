//! The text of a file as tokens with matched brackets, and what becomes of each token.
use super::output::Output;
use super::refused::Refused;
use super::tokens::{Kind, Token, tokens};

/// How many lists of parameters may stand one in the other. No rule has to look far for the end of one.
const DEEPEST: usize = 20;

/// What becomes of a token.
#[derive(Clone, Debug, PartialEq, Eq)]
enum Edit {
    Kept,
    Gone,
    /// This is written in its place.
    Written(String),
}

/// The code of a file. The tokens that are neither blanks nor comments have numbers, from 0; all that is said of a
/// token `at` below is about these.
pub struct Code<'a> {
    file: &'a str,
    // All tokens, and what becomes of them.
    tokens: Vec<Token<'a>>,
    edits: Vec<Edit>,
    // For each numbered token its place among all.
    places: Vec<usize>,
    // For each numbered token the bracket that closes it. For those that open nothing, their own numbers.
    closing: Vec<usize>,
    // For each numbered token how many brackets are open around it.
    depths: Vec<usize>,
}

impl<'a> Code<'a> {
    /// Reads a text. Brackets that don't match are refused.
    pub fn read(file: &'a str, text: &'a str) -> Result<Code<'a>, Refused> {
        let tokens = tokens(file, text)?;
        let edits = vec![Edit::Kept; tokens.len()];
        let places: Vec<usize> = (0..tokens.len()).filter(|&place| tokens[place].kind.is_code()).collect();
        let closing = (0..places.len()).collect();
        let depths = vec![0; places.len()];
        let mut code = Code { file, tokens, edits, places, closing, depths };
        code.match_brackets()?;
        Ok(code)
    }

    fn match_brackets(&mut self) -> Result<(), Refused> {
        let mut open: Vec<usize> = Vec::new();
        for at in 0..self.len() {
            let word = self.word(at);
            if let Some(opening) = opening_of(word) {
                match open.pop() {
                    Some(last) if self.word(last) == opening => self.closing[last] = at,
                    _ => return Err(self.refused(at, &format!("{word} closes nothing"))),
                }
            }
            self.depths[at] = open.len();
            if is_opening(word) {
                open.push(at);
            }
        }
        match open.pop() {
            Some(last) => Err(self.refused(last, &format!("{} is never closed", self.word(last)))),
            None => Ok(()),
        }
    }

    /// The refusal of the line of a token, or of the last one if there is none with this number.
    pub fn refused(&self, at: usize, why: &str) -> Refused {
        let place = self.places.get(at).or(self.places.last());
        Refused::at(self.file, place.map_or(1, |&place| self.tokens[place].line), why)
    }

    /// How many tokens have numbers.
    pub fn len(&self) -> usize {
        self.places.len()
    }

    /// How a token is written. Nothing if there is none with this number.
    pub fn word(&self, at: usize) -> &'a str {
        self.places.get(at).map_or("", |&place| self.tokens[place].text)
    }

    /// How the token before one is written. Nothing if there is none.
    pub fn before(&self, at: usize) -> &'a str {
        at.checked_sub(1).map_or("", |last| self.word(last))
    }

    /// What a token is. A mark if there is none with this number.
    pub fn kind(&self, at: usize) -> Kind {
        self.places.get(at).map_or(Kind::Mark, |&place| self.tokens[place].kind)
    }

    /// Whether these tokens stand from `at` on. They are given with a blank between any two.
    pub fn reads(&self, at: usize, tokens: &str) -> bool {
        tokens.split(' ').zip(at..).all(|(token, at)| self.word(at) == token)
    }

    /// How many brackets are open around a token.
    pub fn depth(&self, at: usize) -> usize {
        self.depths.get(at).map_or(0, |&depth| depth)
    }

    /// The bracket that closes this one. The token itself if it opens none.
    pub fn closing(&self, at: usize) -> usize {
        self.closing.get(at).map_or(at, |&closing| closing)
    }

    /// The token behind this one, and behind what is in its brackets if it opens some.
    pub fn behind(&self, at: usize) -> usize {
        self.closing(at) + 1
    }

    /// The next such mark from `at` on that isn't in brackets which open before it. None if a `;` or the end of what is
    /// around comes first.
    pub fn find(&self, mut at: usize, mark: &str) -> Option<usize> {
        while at < self.len() && self.word(at) != mark {
            if self.word(at) == ";" || opening_of(self.word(at)).is_some() {
                return None;
            }
            at = self.behind(at);
        }
        (at < self.len()).then_some(at)
    }

    /// As `find`, for a mark that has to be there.
    pub fn require(&self, at: usize, mark: &str) -> Result<usize, Refused> {
        self.find(at, mark).ok_or_else(|| self.refused(at, &format!("{}: there is no {mark} to it", self.word(at))))
    }

    /// The token behind a list of parameters, which begins with the `<` at `open`.
    pub fn behind_parameters(&self, open: usize) -> Result<usize, Refused> {
        let mut depth = 0;
        for at in open..self.len() {
            match self.word(at) {
                "<" => depth += 1,
                ">" => depth -= 1,
                ";" | "{" | "}" => break,
                _ => {}
            }
            match depth {
                0 => return Ok(at + 1),
                DEEPEST => break,
                _ => {}
            }
        }
        Err(self.refused(open, "< is never closed, or there are too many in it"))
    }

    /// Whether a token was removed.
    pub fn is_gone(&self, at: usize) -> bool {
        self.places.get(at).is_some_and(|&place| self.edits[place] == Edit::Gone)
    }

    /// Writes something else in the place of a token.
    pub fn write(&mut self, at: usize, text: impl Into<String>) {
        if let Some(&place) = self.places.get(at) {
            self.edits[place] = Edit::Written(text.into());
        }
    }

    /// Writes something else in the place of the tokens from the first to the last.
    pub fn replace(&mut self, first: usize, last: usize, text: impl Into<String>) {
        self.remove(first, last);
        self.write(first, text);
    }

    /// Removes the tokens from the first to the last, with all that stands between them.
    pub fn remove(&mut self, first: usize, last: usize) {
        if let (Some(&begin), Some(&end)) = (self.places.get(first), self.places.get(last)) {
            self.edits[begin..=end].fill(Edit::Gone);
        }
    }

    /// Removes tokens, and the blanks behind them.
    pub fn remove_with_blanks(&mut self, first: usize, last: usize) {
        self.remove(first, last);
        self.remove_blanks_behind(last);
    }

    /// Removes the blanks behind a token.
    pub fn remove_blanks_behind(&mut self, at: usize) {
        let Some(place) = self.places.get(at).map(|place| place + 1) else {
            return;
        };
        if self.is_blank(place) {
            self.edits[place] = Edit::Gone;
        }
    }

    /// Removes tokens, the blanks before them, and the comments that belong to them: those that stand just above, in
    /// lines of their own.
    pub fn remove_with_comments(&mut self, first: usize, last: usize) {
        let Some(&place) = self.places.get(first) else { return };
        // Where the code before ends.
        let floor = first.checked_sub(1).map_or(0, |before| self.places[before] + 1);
        let mut begin = place;
        while begin > floor && self.belongs_below(begin - 1, floor) {
            begin -= 1;
        }
        if begin > floor && self.is_blank(begin - 1) {
            begin -= 1;
        }
        self.edits[begin..place].fill(Edit::Gone);
        self.remove(first, last);
    }

    /// Whether blanks or a comment belong to what stands below them. Blanks with an empty line don't, and neither does a
    /// comment in the line of the code before it, which ends at the place `floor`.
    fn belongs_below(&self, place: usize, floor: usize) -> bool {
        let Token { kind, text, .. } = self.tokens[place];
        let is_first_in_line =
            place > floor + 1 || floor == 0 || (place > floor && self.tokens[floor].text.contains('\n'));
        match kind {
            Kind::Blank => text.matches('\n').count() < 2,
            Kind::OuterDoc | Kind::Comment => is_first_in_line,
            _ => false,
        }
    }

    fn is_blank(&self, place: usize) -> bool {
        self.tokens.get(place).is_some_and(|token| token.kind == Kind::Blank)
    }

    /// The text that is left, with these lines behind the inner doc comments and inner attributes at its head.
    pub fn result(&self, lines: &str) -> String {
        let mut output = Output::default();
        let end_of_head = self.end_of_head();
        for (place, (token, edit)) in self.tokens.iter().zip(&self.edits).enumerate() {
            if place == end_of_head {
                output.push_lines(lines);
            }
            match edit {
                Edit::Gone => {}
                Edit::Kept => output.push(token.kind, token.text),
                Edit::Written(text) => output.push(Kind::Other, text),
            }
        }
        if end_of_head == self.tokens.len() {
            output.push_lines(lines);
        }
        output.end()
    }

    /// The place behind the inner doc comments and inner attributes at the head of the file.
    fn end_of_head(&self) -> usize {
        let mut at = 0;
        while self.reads(at, "# !") {
            at = self.behind(at + 2);
        }
        let end = self.places.get(at).map_or(self.tokens.len(), |&place| place);
        let is_of_head = |place: &usize| {
            let kind = self.tokens[*place].kind;
            kind == Kind::InnerDoc || kind.is_code()
        };
        (0..end).rfind(is_of_head).map_or(0, |place| place + 1)
    }
}

fn opening_of(word: &str) -> Option<&'static str> {
    match word {
        ")" => Some("("),
        "]" => Some("["),
        "}" => Some("{"),
        _ => None,
    }
}

/// Whether this is a bracket that opens.
pub fn is_opening(word: &str) -> bool {
    matches!(word, "(" | "[" | "{")
}
