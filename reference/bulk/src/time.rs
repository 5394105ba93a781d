//! The length in time: counts that no script holds, since 32 bits are too few for them, and others beside
//! them.

use crate::answers::meaning;
use crate::call;
use crate::run::{on, refusals, report, Run, UNTOUCHED};
use reference::judge::LONGEST;
use reference::random::Random;
use reference::sheet::{Sheet, SHEET_E};
use reference::suites::rows::time::PAST_32_BITS;
use reference::suites::{pool, sheets};
use reference::time::length;
use reference::wiring::{self, WIRINGS};
use std::process::exit;

const CALL: &str = "time";

/// The most words that have a time.
const LIMIT: u64 = LONGEST as u64;

/// Counts that have a time, with their names.
const ALLOWED: [(u64, &str); 5] = [
    (0, "no words"),
    (1, "1 word"),
    (203, "203 words"),
    (LIMIT - 1, "16,777,215 words"),
    (LIMIT, "16,777,216 words"),
];

/// Counts that have none. 32 bits would take some of them for counts that do, and 64 would take the
/// product of the last two and a period for a smaller one.
const ABOVE: [(u64, &str); 8] = [
    (LIMIT + 1, "16,777,217 words"),
    ((1 << 32) - 1, "2^32 - 1 words"),
    (1 << 32, "2^32 words"),
    (PAST_32_BITS.0, "2^32 + 1 words"),
    ((1 << 32) + LIMIT, "2^32 + 16,777,216 words"),
    ((1 << 32) + LIMIT + 1, "2^32 + 16,777,217 words"),
    (1 << 63, "2^63 words"),
    (u64::MAX, "2^64 - 1 words"),
];

/// All of these.
fn counts() -> Vec<(u64, &'static str)> {
    [&ALLOWED[..], &ABOVE].concat()
}

/// What a run must meet.
pub fn promised() -> Vec<String> {
    let name = |count, wiring, answer| {
        let banks = wiring::name(wiring);
        format!("{CALL}, {count}, {banks}: {}", meaning(answer))
    };
    let mut promised = Vec::new();
    for wiring in WIRINGS {
        promised.extend(ALLOWED.map(|(_, count)| name(count, wiring, 0)));
        promised.extend(ABOVE.map(|(_, count)| name(count, wiring, 32)));
    }
    let of_sheets = counts().into_iter();
    promised.extend(of_sheets.flat_map(|(_, count)| refusals(CALL, count)));
    promised
}

/// Every count on sheet E, on the corners of every part, on sheets at random, and on refused ones.
pub fn each(run: &mut Run, random: &Random) {
    let drawn = (0..2_000).map(|_| pool::sheet(random));
    let accepted = [vec![SHEET_E], pool::corners(), drawn.collect()].concat();
    for sheet in [accepted, sheets::refused()].concat() {
        for (count, name) in counts() {
            run.time(&sheet, count, name);
        }
        run.time(&sheet, random.below(LONGEST + 1).into(), "some words");
    }
}

impl Run {
    /// Compares the length in time of so many words, which is in the two places of the caller's; those of a
    /// refused call stay, and always the one on either side.
    fn time(&mut self, sheet: &Sheet, count: u64, name: &str) {
        let mut room = [UNTOUCHED; 4];
        let [_, places @ .., _] = &mut room;
        let answer = call::time(sheet, count as usize, places);
        let got = (answer, room.map(u64::from));
        let stays = u64::from(UNTOUCHED);
        let wanted = match length(sheet, count) {
            Ok(time) => (0, [stays, time.nanoseconds, time.rest, stays]),
            Err(number) => (number, [stays; 4]),
        };
        if wanted != got {
            let call = format!("{CALL} of {count} words on {:?}", sheet.numbers());
            report(&call, &format!("{wanted:?}"), &format!("{got:?}"));
            exit(1)
        }
        self.count_answer(CALL, &on(sheet, name), &[], answer.into());
    }
}
