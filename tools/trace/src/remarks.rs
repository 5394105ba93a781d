//! What is said of the lines of a text.

/// The most lines that are named; of the others it is only said that there are more.
const MOST_NAMED: usize = 20;

/// The most characters that are said of a line.
const MOST_SAID: usize = 200;

/// The first lines of which something is said, counted from 1, and whether there are more.
#[derive(Debug, Default, PartialEq, Eq)]
pub struct Remarks {
    named: Vec<(u64, String)>,
    more: bool,
}

impl Remarks {
    /// Says something of a line.
    pub fn add(&mut self, line: u64, what: &str) {
        match self.named.len() < MOST_NAMED {
            true => self.named.push((line, printable(what))),
            false => self.more = true,
        }
    }

    /// Whether nothing is said of any line.
    pub fn is_empty(&self) -> bool {
        self.named.is_empty()
    }

    /// Whether there are more lines than are named.
    pub fn more(&self) -> bool {
        self.more
    }

    /// One message a line, each with the file's name; `kind` is what there may be more of.
    pub fn messages(&self, file: &str, kind: &str) -> Vec<String> {
        let named = self.named.iter();
        let mut messages: Vec<String> = named
            .map(|(line, what)| format!("{file}:{line}: {what}"))
            .collect();
        if self.more {
            messages.push(format!("{file}: there are more {kind}"));
        }
        messages
    }
}

/// What is said of a line, which may quote it: cut short, and its control characters escaped.
fn printable(what: &str) -> String {
    let escaped = |c: char| match c.is_control() {
        true => c.escape_default().to_string(),
        false => c.to_string(),
    };
    let mut said: String = what.chars().take(MOST_SAID).map(escaped).collect();
    if what.chars().nth(MOST_SAID).is_some() {
        said.push('…');
    }
    said
}
