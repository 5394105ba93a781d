//! Input that is too long or has no end is refused, soon and in little memory.

mod common;

use common::{bytes, faults, listing, listing_data, piped, run, said};
use std::io::{self, BufRead, Read, Write};
use std::process::Command;
use trace::{assemble, Format, LONGEST, LONGEST_LINE, LONGEST_TEXT};

/// A text that repeats a block without end.
struct Endless {
    block: Vec<u8>,
    place: usize,
}

/// Comments without end, as long as lines may be.
fn comments() -> Endless {
    let mut block = vec![b'#'; LONGEST_LINE as usize];
    block[LONGEST_LINE as usize - 1] = b'\n';
    Endless { block, place: 0 }
}

impl BufRead for Endless {
    fn fill_buf(&mut self) -> io::Result<&[u8]> {
        Ok(&self.block[self.place..])
    }

    fn consume(&mut self, count: usize) {
        self.place = (self.place + count) % self.block.len();
    }
}

impl Read for Endless {
    fn read(&mut self, bytes: &mut [u8]) -> io::Result<usize> {
        let count = self.fill_buf()?.read(bytes)?;
        self.consume(count);
        Ok(count)
    }
}

/// The lines before the one that is named are the longest text, to the byte.
#[test]
fn a_text() {
    assert_eq!(LONGEST_TEXT, 5120 * LONGEST_LINE);
    let wanted = "t:5121: the text is longer than 5368709120 bytes";
    assert_eq!(faults(comments()), [wanted]);
}

/// The most bytes of a listing's line whose clocks have one digit here, and eight at most.
fn at_most(line: &str) -> usize {
    let (_, note) = line.split_once(" # ").expect("the clocks are there");
    let clocks = note
        .split([' ', ','])
        .filter(|clock| clock.parse::<u64>().is_ok());
    line.len() + 7 * clocks.count() + 1
}

/// A word's line in a listing keeps to the word's share of the longest text; a LAL's with data does so together with the line before it.
#[test]
fn a_listing() {
    let share = (LONGEST_TEXT / LONGEST) as usize;
    for word in (0..1 << 20).step_by(61).chain([u32::MAX, !(1 << 19)]) {
        for first in [0xC0000, 0xA0000, 0x80000, 0xFFF8_0000] {
            let words = bytes(&[first, word]);
            let lengths = |text: &str| -> Vec<usize> {
                let lines = text.lines().filter(|line| line.contains(" # "));
                lines.map(at_most).collect()
            };
            let plain = lengths(&listing(&words, Format::default()));
            assert!(plain.iter().all(|length| *length <= share), "{word:#X}");
            let with_data = lengths(&listing_data(&words, Format::default(), 4));
            assert!(with_data.iter().sum::<usize>() <= 2 * share, "{word:#X}");
        }
    }
}

#[test]
fn a_line() {
    let line = |length: u64| "#".repeat(length as usize);
    for end in ["", "\n", "\nDESL\n"] {
        assert!(assemble((line(LONGEST_LINE) + end).as_bytes(), None).is_ok());
        let wanted = "t:1: the line is longer than 1048576 bytes";
        assert_eq!(faults((line(LONGEST_LINE + 1) + end).as_bytes()), [wanted]);
    }
    let after_others = "NOP\n".to_string() + &line(LONGEST_LINE + 1) + "\nNOP\n";
    let wanted = [
        "t:1: NOP is no command",
        "t:2: the line is longer than 1048576 bytes",
    ];
    assert_eq!(faults(after_others.as_bytes()), wanted);
}

/// Runs `trace assemble` in 64 MiB of memory; gives its status, what it said, and whether it read the whole text.
fn in_little_memory(mut text: impl Read) -> (Option<i32>, String, bool) {
    let mut shell = Command::new("sh");
    shell.args(["-c", "ulimit -v 65536; exec \"$0\" assemble - /dev/null"]);
    shell.arg(env!("CARGO_BIN_EXE_trace"));
    let mut child = piped(shell).spawn().expect("the shell runs");
    let mut pipe = child.stdin.take().expect("it has an input");
    let all = io::copy(&mut text, &mut pipe).and_then(|_| pipe.flush());
    drop(pipe);
    let (status, what) = said(&child.wait_with_output().expect("the program ends"));
    (status, what, all.is_ok())
}

const MANY: u64 = 1 << 28;

#[test]
fn no_line_feed() {
    let wanted = "standard input:1: the line is longer than 1048576 bytes\n";
    let ended = in_little_memory(io::repeat(0).take(MANY));
    assert_eq!(ended, (Some(1), wanted.to_string(), false));
}

#[test]
fn many_lines() {
    let lines = |line: &str| Endless {
        block: line.repeat(10_000).into_bytes(),
        place: 0,
    };
    let ended = in_little_memory(lines("DESL x 100\n").take(MANY));
    let wanted = "standard input:671089: the trace is longer than 67108864 words\n";
    assert_eq!(ended, (Some(1), wanted.to_string(), false));

    let (status, what, all) = in_little_memory(lines("NOP\n").take(MANY));
    assert_eq!((status, what.lines().count(), all), (Some(1), 21, false));

    let ended = in_little_memory(comments().take(MANY));
    assert_eq!(ended, (Some(0), String::new(), true));
}

#[test]
fn files_without_an_end() {
    for (command, what) in [
        ("assemble", ":1: the line is longer than 1048576 bytes"),
        ("list", ": the trace is longer than 67108864 words"),
    ] {
        let run = run(&[command, "/dev/zero"], b"");
        assert_eq!(said(&run), (Some(1), format!("/dev/zero{what}\n")));
    }
}
