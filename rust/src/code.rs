//! The codes by which the program tells errors, and their words.
use crate::crates::mapf_app::{CheckFault, Fault, MapFault, PlayFault, ScenFault, tell_run};
use crate::crates::mapf_explain::explain;
use crate::crates::mapf_model::{Failed, Sink};
use crate::rattle_std::alloc::Global;
use std::fmt;

/// The code of an error: the line by which the program `mapf` tells it, such as `F2 S7 32` or `refused C8 12`. Section 8
/// of docs/FORMATS.md lists them. Its text is this line.
#[derive(Clone, Copy, PartialEq, Eq)]
pub struct Code(pub(crate) Fault);

impl Code {
    /// The column and the row of the map's character that is no terrain, if that is the error.
    pub(crate) fn terrain(self) -> Option<(u32, u32)> {
        match self.0 {
            Fault::F1(MapFault::M7 { x, y }) => Some((x, y)),
            _ => None,
        }
    }

    /// The agent whose start or goal isn't free, if that is the error.
    pub(crate) fn agent(self) -> Option<u32> {
        match self.0 {
            Fault::F2(ScenFault::S5 { row }) => Some(row),
            _ => None,
        }
    }

    /// Writes in words what is wrong with the text or the plan that the first word of the code is about.
    pub(crate) fn write_reason(self, f: &mut fmt::Formatter<'_>) -> fmt::Result {
        match self.0 {
            Fault::F3(PlayFault::OtherCount) => f.write_str("its number of agents isn't that of the problem"),
            Fault::Refused(CheckFault::C3) => {
                f.write_str("the number of agents of the plan text or of the certificate isn't that of the problem")
            }
            _ => self.write_explained(f),
        }
    }

    /// Writes the words of `mapf explain` for the line, without those for its first word. Where there is no memory for
    /// them the line is told.
    fn write_explained(self, f: &mut fmt::Formatter<'_>) -> fmt::Result {
        let line = Line::of(self.0);
        match explain(Global, line.as_str()) {
            Ok(Some(words)) => f.write_str(words.split_once(": ").map_or(words.as_str(), |(_, reason)| reason)),
            Ok(None) | Err(_) => f.write_str(line.as_str()),
        }
    }
}

impl fmt::Display for Code {
    fn fmt(&self, f: &mut fmt::Formatter<'_>) -> fmt::Result {
        f.write_str(Line::of(self.0).as_str())
    }
}

impl fmt::Debug for Code {
    fn fmt(&self, f: &mut fmt::Formatter<'_>) -> fmt::Result {
        fmt::Display::fmt(self, f)
    }
}

/// The greatest length of a line: three names and three numbers of at most 20 digits fit.
const LONGEST_LINE: usize = 96;

/// The line of an error. It takes no memory, of which there may be none left.
struct Line {
    bytes: [u8; LONGEST_LINE],
    length: usize,
    is_failed: bool,
}

impl Line {
    fn of(fault: Fault) -> Line {
        let mut line = Line { bytes: [0; LONGEST_LINE], length: 0, is_failed: false };
        tell_run(&Err(fault), &mut line);
        line
    }

    /// The line without its end.
    fn as_str(&self) -> &str {
        str::from_utf8(&self.bytes[..self.length]).unwrap_or_default().trim_end()
    }
}

impl Sink for Line {
    fn push(&mut self, bytes: &[u8]) -> Result<usize, Failed> {
        let room = &mut self.bytes[self.length..];
        let count = bytes.len().min(room.len());
        if count == 0 {
            self.is_failed = true;
            return Err(Failed);
        }
        room[..count].copy_from_slice(&bytes[..count]);
        self.length += count;
        Ok(count)
    }

    fn failed(&self) -> bool {
        self.is_failed
    }
}
