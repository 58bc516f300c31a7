//! Why a source isn't translated.
use std::error::Error;
use std::{fmt, io};

/// A place that the translator doesn't know how to translate, or a file that it can't read.
#[derive(Clone, Debug, PartialEq, Eq)]
pub struct Refused {
    /// The file, by its path from the top of the repository.
    pub file: String,
    /// The line, counted from 1. None if the file as a whole is meant.
    pub line: Option<usize>,
    /// The reason, in one line.
    pub why: String,
}

impl Refused {
    /// The refusal of a line of a file.
    pub fn at(file: &str, line: usize, why: &str) -> Refused {
        Refused { line: Some(line), ..Refused::whole(file, why) }
    }

    /// The refusal of a file as a whole.
    pub fn whole(file: &str, why: &str) -> Refused {
        // A reason may name a token, and a token may have line ends.
        let why = why.split_whitespace().collect::<Vec<_>>().join(" ");
        Refused { file: file.to_owned(), line: None, why }
    }

    /// The refusal of a file or a folder that can't be read.
    pub fn unread(path: &str, error: &io::Error) -> Refused {
        Refused::whole(path, &format!("it can't be read: {error}"))
    }
}

impl fmt::Display for Refused {
    fn fmt(&self, f: &mut fmt::Formatter<'_>) -> fmt::Result {
        match self.line {
            Some(line) => write!(f, "{}:{line}: {}", self.file, self.why),
            None => write!(f, "{}: {}", self.file, self.why),
        }
    }
}

impl Error for Refused {}
