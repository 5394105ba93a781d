//! What a line is worth a warning for: its word is another in its place than the line says, or has a lane that the line leaves out.

use crate::command::Command;
use crate::format::Format;
use crate::kind::{open_after, opens, Kind};

/// The first word of a pair, and the line that opens it.
#[derive(Clone, Copy, Debug)]
pub struct Open {
    pub word: u32,
    pub line: u64,
}

/// A line that gives a word, so many times.
pub struct Given<'a> {
    /// What the line calls its word.
    pub name: &'a str,
    pub command: Command,
    pub count: u64,
    pub line: u64,
}

impl Given<'_> {
    /// The pair that is open after the line.
    pub fn leaves(&self, open: Option<Open>) -> Option<Open> {
        self.after(open, self.count)
    }

    /// The pair that is open after so many of the words.
    fn after(&self, open: Option<Open>, count: u64) -> Option<Open> {
        let word = open_after(open.map(|open| open.word), self.command.word(), count)?;
        let line = self.line;
        Some(Open { word, line })
    }

    /// What is to be said of the line, once. The words after the second stand as one of the first two does.
    pub fn warning(&self, open: Option<Open>, format: Format) -> Option<String> {
        let first = self.warning_at(open, format);
        let second = || self.warning_at(self.after(open, 1), format);
        let said = match self.count {
            1 => first,
            _ => first.or_else(second),
        };
        said.map(|what| format!("warning: {what}"))
    }

    /// What is to be said of the word at one place.
    fn warning_at(&self, open: Option<Open>, format: Format) -> Option<String> {
        let word = self.command.word();
        let kind = Kind::of(open.map(|open| open.word), word);
        if self.command.name()? == kind.name() {
            return self.lanes(kind, format);
        }
        let (name, kind) = (self.name, kind.name());
        Some(match open {
            Some(Open { line, .. }) => {
                let article = if kind == "MRS" { "an" } else { "a" };
                format!("{name} closes the pair of line {line}, as {article} {kind}")
            }
            None if opens(word) => format!("{name} opens a pair, as a {kind}: none is open"),
            None => format!("{name} is a {kind}: no pair is open"),
        })
    }

    /// What is to be said of a LAL that closes a write and leaves out a lane, where that is the reserved code.
    fn lanes(&self, kind: Kind, format: Format) -> Option<String> {
        let lanes = self.command.reserved_by_omission(format);
        (kind == Kind::WriteLal && !lanes.is_empty()).then(|| {
            let lanes = lanes.join(" or ");
            format!("a write's LAL without {lanes} has the reserved code of BL 4")
        })
    }
}
