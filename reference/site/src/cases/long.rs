//! Traces as long as allowed, and longer.

use crate::run::Run;
use reference::hand_in::site_number;
use reference::judge::LONGEST;
use reference::random::Random;
use reference::script::bytes;
use reference::sheet::{Sheet, SHEET_E, SHEET_E_OF_FOUR};
use reference::suites::load;
use reference::summary::Summary;
use reference::word::{BA2, CS, DESL, FN, PD};

const WORDS: usize = LONGEST as usize;
const BYTES: usize = WORDS * 4;
const LAST: u32 = LONGEST - 1;

/// What this section must meet, beside the numbers.
pub fn promised() -> Vec<String> {
    let mut promised: Vec<String> = [
        "accepted",
        "accepted, REF at the last word",
        "accepted, pair open at the end",
        "breach 1 at the last word",
        "breach 2 at the last word",
        "breach 3 at the last word",
        "breach 5 at the last word",
        "breach 3 in the middle",
        "24, one word more",
        "accepted on four banks",
        "24 on four banks, one word more",
        "accepted, two reads at the end",
        "breach 7 at the last word",
        "accepted, with sleeps",
        "accepted, PD low from the first word to the last",
        "breach 13 at the last word",
        "breach 2 at the last word, PD low again",
    ]
    .map(name)
    .to_vec();
    for rest in 1..4 {
        promised.push(name(&format!("29, {rest} bytes more")));
        promised.push(name(&format!("29, {rest} bytes less")));
        promised.push(name(&format!("accepted at offset {rest}")));
    }
    promised
}

fn name(what: &str) -> String {
    format!("as long as allowed: {what}")
}

/// A trace of up to seven bytes more than allowed, at an offset in memory.
struct Long {
    sheet: Sheet,
    memory: Vec<u8>,
    offset: usize,
}

impl Long {
    fn new(sheet: Sheet, words: &[u32]) -> Long {
        let mut memory = bytes(words);
        memory.resize(BYTES + 16, 0xFF);
        Long {
            sheet,
            memory,
            offset: 0,
        }
    }

    /// Moves the trace to another offset.
    fn move_to(&mut self, offset: usize) {
        let from = self.offset;
        self.memory.copy_within(from..from + BYTES + 8, offset);
        self.offset = offset;
    }

    /// The word at a clock.
    fn set(&mut self, clock: u32, word: u32) {
        let at = self.offset + 4 * clock as usize;
        self.memory[at..at + 4].copy_from_slice(&word.to_le_bytes());
    }

    /// Compares on so many bytes; the answer is known, and the reference finds the same.
    fn compare(&self, run: &mut Run, length: usize, wanted: u32, what: &str) {
        let trace = &self.memory[self.offset..self.offset + length];
        let found = site_number::<Summary>(&self.sheet, trace);
        assert_eq!(found, wanted, "the reference: {what}");
        run.lent(&self.sheet, trace, wanted);
        run.coverage.meet(&name(what));
    }
}

pub fn cases(run: &mut Run, _scale: u32) {
    let random = Random::new(run.random.next64());
    busy(run, &random);
    let words = load::idle(&SHEET_E, WORDS);
    idle(run, &words);
    two_reads(run, &words);
    let mixed = load::mixed(&random, &SHEET_E, WORDS);
    Long::new(SHEET_E, &mixed).compare(run, BYTES, 0, "accepted");
    four_banks(run, &random);
    sleeping(run, &random);
}

/// A trace with sleeps, and one that is a single sleep, which ends in some way.
fn sleeping(run: &mut Run, random: &Random) {
    let words = load::sleeping(random, &SHEET_E_OF_FOUR, WORDS);
    let trace = Long::new(SHEET_E_OF_FOUR, &words);
    trace.compare(run, BYTES, 0, "accepted, with sleeps");
    let mut trace = Long::new(SHEET_E_OF_FOUR, &vec![CS; WORDS]);
    let what = "accepted, PD low from the first word to the last";
    trace.compare(run, BYTES, 0, what);
    trace.set(LAST - 1, DESL);
    trace.set(LAST, PD);
    trace.compare(run, BYTES, LAST * 64 + 13, "breach 13 at the last word");
    trace.set(LAST, CS);
    let what = "breach 2 at the last word, PD low again";
    trace.compare(run, BYTES, LAST * 64 + 2, what);
}

/// A trace on four banks, on another sheet than E.
fn four_banks(run: &mut Run, random: &Random) {
    let mut sheet = SHEET_E_OF_FOUR;
    (sheet.cl, sheet.period, sheet.refc) = (5, 3750, 63);
    let mixed = load::mixed(random, &sheet, WORDS);
    let trace = Long::new(sheet, &mixed);
    trace.compare(run, BYTES, 0, "accepted on four banks");
    trace.compare(run, BYTES + 4, 24, "24 on four banks, one word more");
}

/// An idle trace that ends with two reads, a clock less than RC apart, which differ in BA2 alone.
fn two_reads(run: &mut Run, idle: &[u32]) {
    let mut trace = Long::new(SHEET_E, idle);
    trace.set(LAST - SHEET_E.rc(), PD | FN);
    trace.set(LAST - 1, PD | FN | BA2);
    trace.compare(run, BYTES, 0, "accepted, two reads at the end");
    trace.sheet = SHEET_E_OF_FOUR;
    trace.compare(run, BYTES, LAST * 64 + 7, "breach 7 at the last word");
}

/// A busy trace and all that can befall its end.
fn busy(run: &mut Run, random: &Random) {
    let words = load::busy(random, &SHEET_E, WORDS);
    let mut trace = Long::new(SHEET_E, &words);
    trace.compare(run, BYTES, 0, "accepted");
    trace.compare(run, BYTES + 4, 24, "24, one word more");
    for rest in 1..4 {
        trace.compare(run, BYTES + rest, 29, &format!("29, {rest} bytes more"));
        trace.compare(run, BYTES + 4 + rest, 29, &format!("29, {rest} bytes more"));
        trace.compare(run, BYTES - rest, 29, &format!("29, {rest} bytes less"));
    }
    trace.set(LAST, words[WORDS - 1] | 1 << 31);
    trace.compare(run, BYTES, LAST * 64 + 1, "breach 1 at the last word");
    trace.set(LAST, words[WORDS - 1] & !PD);
    trace.compare(run, BYTES, LAST * 64 + 2, "breach 2 at the last word");
    trace.set(0, 0);
    trace.compare(run, BYTES, 2, "breach at the first word");
    trace.compare(run, BYTES + 4, 24, "24, one word more");
    trace.sheet.refc = 17;
    trace.compare(run, BYTES + 5, 33, "33, a word and a byte more");
    trace.sheet.period = 4499;
    trace.compare(run, BYTES + 5, 21, "21, a word and a byte more");
}

/// Idle traces, each refresh at the last clock allowed: at every offset, one missing, one at the end.
fn idle(run: &mut Run, words: &[u32]) {
    let none = Long::new(SHEET_E, &vec![DESL; WORDS]);
    none.compare(run, BYTES, 0, "accepted");

    let mut trace = Long::new(SHEET_E, words);
    for offset in 0..4 {
        trace.move_to(offset);
        trace.compare(run, BYTES, 0, &format!("accepted at offset {offset}"));
    }
    let refresh = words[WORDS / 2..].iter().position(|w| w & CS == 0);
    let first = (WORDS / 2 + refresh.unwrap()) as u32;
    trace.set(first, DESL);
    trace.set(first + 1, DESL);
    trace.compare(run, BYTES, (first + 2) * 64 + 3, "breach 3 in the middle");

    let mut trace = Long::new(SHEET_E, &with_refresh_at(words, LAST));
    trace.compare(run, BYTES, 0, "accepted, REF at the last word");
    // A write's LAL in the place of REF, both lanes reserved.
    trace.set(LAST, DESL);
    trace.compare(run, BYTES, LAST * 64 + 5, "breach 5 at the last word");
    trace.set(LAST - 1, DESL);
    trace.set(LAST, DESL);
    trace.compare(run, BYTES, 0, "accepted");

    let mut trace = Long::new(SHEET_E, &with_refresh_at(words, LAST - 1));
    trace.compare(run, BYTES, 0, "accepted");
    trace.set(LAST - 2, DESL);
    trace.set(LAST - 1, DESL);
    trace.compare(run, BYTES, LAST * 64 + 3, "breach 3 at the last word");

    let trace = Long::new(SHEET_E, &with_refresh_at(words, LAST + 1));
    trace.compare(run, BYTES, 0, "accepted, pair open at the end");
}

/// An idle trace moved back by DESL words so that some REF word has the clock, or would have. They
/// come again every 8 × D clocks, and the one taken is that which comes soon after another.
fn with_refresh_at(idle: &[u32], clock: u32) -> Vec<u32> {
    let second_ref = idle[..201].iter().rposition(|w| w & CS == 0).unwrap() as u32;
    let lead = ((clock - second_ref) % (8 * SHEET_E.d())) as usize;
    let mut words = vec![DESL; lead];
    words.extend(&idle[..WORDS - lead]);
    words
}
