//! Every short length in bytes at every address, and every beginning of a trace.

use crate::run::Run;
use reference::past::Past;
use reference::phase::Phase;
use reference::script::bytes;
use reference::sheet::{Sheet, SHEET_E};
use reference::suites::{long, near, pool};
use reference::summary::Summary;
use reference::word::{CS, DESL};

/// The greatest of the short lengths, in bytes.
const SHORT_LENGTHS: usize = 70;

/// The beginnings of a trace are taken up to so many words, and from so many before its end on.
const FIRST: usize = 700;
const LAST: usize = 40;

pub fn cases(run: &mut Run, scale: u32) {
    for _ in 0..4 * scale {
        short_lengths(run);
    }
    for round in 0..30 * scale {
        beginnings(run, round);
    }
}

/// Lengths up to 70 of good and bad words, at every address, within memory and up to its edge.
fn short_lengths(run: &mut Run) {
    let sheet = match run.random.once_in(2) {
        true => SHEET_E,
        false => pool::sheet(&run.random),
    };
    let valid = bytes(&long::dense_words(&run.random, &sheet, 300));
    let noise: Vec<u8> = (0..72).map(|_| run.random.bits() as u8).collect();
    let idle = bytes(&[DESL; 18]);
    let asleep = bytes(&[&[CS][..], &[0; 17]].concat());
    for content in [&valid[..72], &idle, &asleep, &noise, &[0; 72], &[0xFF; 72]] {
        for length in 0..=SHORT_LENGTHS {
            for address in 0..4 {
                for at_edge in [false, true] {
                    run.short_at(&sheet, &content[..length], address, at_edge);
                }
            }
        }
        run.coverage.meet("0 to 70 bytes at every address");
    }
}

/// Every beginning of a trace, but those in the middle of a long one: word by word, and byte by byte
/// near its end.
fn beginnings(run: &mut Run, way: u32) {
    let sheet = pool::sheet(&run.random);
    let coverage = &mut run.coverage;
    let words = near::near_words(&run.random, coverage, sheet, way);
    let trace = bytes(&words);
    let last = words.len().saturating_sub(LAST).max(FIRST);
    for count in (0..words.len().min(FIRST)).chain(last..words.len()) {
        run.short(&sheet, &trace[..4 * count]);
        if let Some(end) = accepted_end(&sheet, &words[..count]) {
            run.coverage
                .meet(&format!("accepted with {end} at the end"));
        }
    }
    let end = trace.len().saturating_sub(24);
    for length in end..=trace.len() {
        run.short(&sheet, &trace[..length]);
    }
}

/// What a word behind a trace would meet, if the trace is accepted and it would meet anything.
fn accepted_end(sheet: &Sheet, words: &[u32]) -> Option<&'static str> {
    let mut past = Summary::fresh();
    for &word in words {
        if past.lowest(sheet, word).is_some() {
            return None;
        }
        past.push(sheet, word);
    }
    match past.phase() {
        Phase::Standby => None,
        Phase::Open(_) => Some("a pair open"),
        Phase::PowerDown => Some("PD low"),
        Phase::WakeUp => Some("a wake-up word due"),
    }
}
