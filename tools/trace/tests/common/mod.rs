//! What the tests share.

#![allow(dead_code)]

use std::ffi::OsStr;
use std::io::{BufRead, Write};
use std::path::{Path, PathBuf};
use std::process::{Command, Output, Stdio};
use trace::{assemble, list, Assembled, Failure, Format, PERIOD};

/// Every BL with every organisation and wiring; the institute's own first.
pub fn formats() -> Vec<Format> {
    let mut formats = Vec::new();
    for wiring in [8, 4] {
        let with = |(bl, organisation)| Format {
            bl,
            organisation,
            wiring,
        };
        formats.extend([(4, 16), (4, 8), (2, 16), (2, 8)].map(with));
    }
    formats
}

/// The institute's own format, but for the wiring.
pub fn wired(wiring: u32) -> Format {
    Format {
        wiring,
        ..Format::default()
    }
}

/// The little-endian bytes of words.
pub fn bytes(words: &[u32]) -> Vec<u8> {
    words.iter().flat_map(|word| word.to_le_bytes()).collect()
}

/// The listing of bytes, with the institute's own period.
pub fn listing(bytes: &[u8], format: Format) -> String {
    listing_at(bytes, format, PERIOD)
}

/// The listing of bytes, with a period.
pub fn listing_at(bytes: &[u8], format: Format, period: u32) -> String {
    listed(bytes, format, None, period)
}

/// The listing of bytes with data, for a CL.
pub fn listing_data(bytes: &[u8], format: Format, cl: u32) -> String {
    listed(bytes, format, Some(cl), PERIOD)
}

/// The listing of bytes, as `list` gives it.
fn listed(bytes: &[u8], format: Format, cl: Option<u32>, period: u32) -> String {
    let mut text = Vec::new();
    list(bytes, format, cl, period, &mut text).expect("memory takes all text");
    String::from_utf8(text).expect("a listing is text")
}

/// The last line of a listing with the institute's own period: 5 ns a word.
pub fn last_line(words: usize) -> String {
    format!("# lasts {} ns and 0 ps, at 5000 ps a clock\n", 5 * words)
}

/// What a good text gives, with a wiring asked for or none.
pub fn good_as(text: &str, wiring: Option<u32>) -> Assembled {
    match assemble(text.as_bytes(), wiring) {
        Ok(assembled) => assembled,
        Err(failure) => panic!("{failure:?}\n{text}"),
    }
}

/// What a good text gives.
pub fn good(text: &str) -> Assembled {
    good_as(text, None)
}

/// The warnings on a good text, as the program prints them of a file `t`.
pub fn warnings(text: &str) -> Vec<String> {
    good(text).warnings.messages("t", "warnings")
}

/// The bytes of a good text.
pub fn assembled(text: &str) -> Vec<u8> {
    good(text).trace.bytes()
}

/// The messages on a text with wrong lines, as the program prints them of a file `t`.
pub fn faults(text: impl BufRead) -> Vec<String> {
    faults_as(text, None)
}

/// Such messages, with a wiring asked for or none.
pub fn faults_as(text: impl BufRead, wiring: Option<u32>) -> Vec<String> {
    match assemble(text, wiring) {
        Err(Failure::Wrong(faults)) => faults.messages("t", "wrong lines"),
        other => panic!("no wrong line: {other:?}"),
    }
}

/// Lists bytes and assembles the listing, which must give the bytes back, without a warning.
pub fn round(bytes: &[u8], format: Format) {
    let text = listing(bytes, format);
    let back = good(&text);
    if back.trace.bytes() != bytes || !back.warnings.is_empty() {
        panic!("{format:?}\n{bytes:02X?}\n{text}\n{:?}", back.warnings);
    }
}

/// The program, with pipes for its input and output.
pub fn program(arguments: &[impl AsRef<OsStr>]) -> Command {
    let mut program = Command::new(env!("CARGO_BIN_EXE_trace"));
    program.args(arguments);
    piped(program)
}

/// A command with pipes for its input and output.
pub fn piped(mut command: Command) -> Command {
    command
        .stdin(Stdio::piped())
        .stdout(Stdio::piped())
        .stderr(Stdio::piped());
    command
}

/// Runs the program on an input.
pub fn run(arguments: &[impl AsRef<OsStr>], input: &[u8]) -> Output {
    let mut child = program(arguments).spawn().expect("the program runs");
    let mut pipe = child.stdin.take().expect("it has an input");
    // A program that does not read its input may close it first.
    let _ = pipe.write_all(input);
    drop(pipe);
    child.wait_with_output().expect("the program ends")
}

/// The status of a run and what it said.
pub fn said(run: &Output) -> (Option<i32>, String) {
    let said = String::from_utf8(run.stderr.clone()).expect("messages are text");
    (run.status.code(), said)
}

/// A file of a test's own, with some content or none.
pub fn file(name: impl AsRef<Path>, content: Option<&[u8]>) -> PathBuf {
    let path = Path::new(env!("CARGO_TARGET_TMPDIR")).join(name);
    let _ = std::fs::remove_file(&path);
    if let Some(content) = content {
        std::fs::write(&path, content).expect("the file can be written");
    }
    path
}
