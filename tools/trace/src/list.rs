//! From words to text.

use crate::command::Command;
use crate::data::data;
use crate::format::Format;
use crate::kind::{open_after, opens, Kind};
use crate::pins::{high, PD};
use crate::time::lasts;
use std::io::{self, Write};

/// Equal words that open and close pairs in turn are named one by one up to this number.
const NAMED_IN_TURN: u64 = 4;

/// Lists the trace in a file's bytes, with the clocks of data if a CL is given, and says at the end how long its words last; assembled
/// again, the text gives the same bytes.
pub fn list(
    bytes: &[u8],
    format: Format,
    cl: Option<u32>,
    period: u32,
    out: &mut impl Write,
) -> io::Result<()> {
    let words = bytes.chunks_exact(4);
    let rest = words.remainder();
    let words: Vec<u32> = words
        .map(|b| u32::from_le_bytes([b[0], b[1], b[2], b[3]]))
        .collect();
    heading(words.len(), format, out)?;
    let mut lister = Lister {
        format,
        cl,
        first: None,
        clock: 0,
        out,
    };
    for run in words.chunk_by(|a, b| a == b) {
        lister.run(run[0], run.len() as u64)?;
    }
    for byte in rest {
        writeln!(out, "BYTE {byte:#X}")?;
    }
    writeln!(out, "# {}", lasts(words.len(), period))
}

/// The number of words, and the format where it is not the institute's own.
fn heading(words: usize, format: Format, out: &mut impl Write) -> io::Result<()> {
    let usual = Format::default();
    writeln!(out, "# {words} words")?;
    if format.bl != usual.bl {
        writeln!(out, "bl {}", format.bl)?;
    }
    if format.organisation != usual.organisation {
        writeln!(out, "organisation {}", format.organisation)?;
    }
    if format.wiring != usual.wiring {
        writeln!(out, "wiring {}", format.wiring)?;
    }
    Ok(())
}

/// What a bare word is: its kind, and whether it closes a pair with PD low.
fn bare(kind: Kind, word: u32) -> String {
    match kind == Kind::PowerDown || high(word, PD) {
        true => kind.name().to_string(),
        false => format!("{}, PD low", kind.name()),
    }
}

/// So many clocks from a first one on.
fn clocks(first: u64, count: u64) -> String {
    match count {
        1 => first.to_string(),
        _ => format!("{first} to {}", first + count - 1),
    }
}

/// The place in the trace.
struct Lister<'a, W> {
    format: Format,
    /// The CL that data go by, where they are shown.
    cl: Option<u32>,
    /// The first word of the open pair.
    first: Option<u32>,
    clock: u64,
    out: &'a mut W,
}

impl<W: Write> Lister<'_, W> {
    /// Lists a run of equal words. The one that closes a pair has a line of its own.
    fn run(&mut self, word: u32, mut count: u64) -> io::Result<()> {
        if self.first.is_some() {
            self.same(word, 1)?;
            count -= 1;
        }
        if count == 0 {
            return Ok(());
        }
        if !opens(word) {
            return self.same(word, count);
        }
        if count > NAMED_IN_TURN {
            return self.in_turn(word, count);
        }
        for _ in 0..count {
            self.same(word, 1)?;
        }
        Ok(())
    }

    /// Lists one word, or many that are no part of any pair. A LAL stands alone, and so has data of its own.
    fn same(&mut self, word: u32, count: u64) -> io::Result<()> {
        let kind = Kind::of(self.first, word);
        let command = kind.read(self.format, word);
        let mut note = clocks(self.clock, count);
        if matches!(command, Command::Word(_)) {
            note += &format!(", {}", bare(kind, word));
        }
        let shown = |cl| data(kind, self.clock, cl, self.format.bl);
        if let Some((first, count)) = self.cl.and_then(shown) {
            note += &format!(", data {}", clocks(first, count));
        }
        self.line(command, count, &note)
    }

    /// Lists many equal words that open and close pairs, from an opening one on.
    fn in_turn(&mut self, word: u32, count: u64) -> io::Result<()> {
        let opening = Kind::of(None, word).name();
        let closing = Kind::of(Some(word), word).name();
        let clocks = clocks(self.clock, count);
        let note = format!("{clocks}, {opening} and {closing} in turn");
        self.line(Command::Word(word), count, &note)
    }

    /// Writes a line: the command, how often, and a comment.
    fn line(&mut self, command: Command, count: u64, note: &str) -> io::Result<()> {
        let mut text = command.to_string();
        if count > 1 {
            text += &format!(" x {count}");
        }
        self.clock += count;
        self.first = open_after(self.first, command.word(), count);
        writeln!(self.out, "{text:<39} # {note}")
    }
}
