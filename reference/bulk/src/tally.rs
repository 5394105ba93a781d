//! The tally: six counts in places of the caller's, by the sheet, whose refusals come first.

use crate::answers::meaning;
use crate::call;
use crate::cases::{promised_refusals, LENGTHS};
use crate::run::{fail, on, Run, UNTOUCHED};
use reference::counts::{counts, numbers, COUNTS, LONGEST_TALLY};
use reference::random::Random;
use reference::sheet::{Sheet, SHEET_E, SHEET_E_OF_FOUR};
use reference::suites::{data, sheets, tally};
use reference::wiring::{self, WIRINGS};
use reference::word::{CS, FN, PD};

const CALL: &str = "count";

/// How many places the caller has: none, too few, as many as counts, and more.
const ROOMS: [usize; 9] = [0, 1, 2, 3, 4, 5, 6, 7, 13];

/// Lengths of a trace of reads and writes alone, with their names: its last pair open, that closed, and one
/// word more.
const FULL: [(usize, &str); 3] = [
    (LONGEST_TALLY - 1, "65,535 words of pairs"),
    (LONGEST_TALLY, "65,536 words of pairs"),
    (LONGEST_TALLY + 1, "65,537 words of pairs"),
];

/// What a run must meet.
pub fn promised() -> Vec<String> {
    let mut promised = promised_refusals(CALL);
    let lengths = LENGTHS.into_iter().chain(FULL).chain([(0, "short")]);
    for (length, name) in lengths {
        let answer = if length > LONGEST_TALLY { 30 } else { 0 };
        let with = |w| format!("{CALL}, {name}, {}: {}", wiring::name(w), meaning(answer));
        promised.extend(WIRINGS.map(with));
    }
    promised.extend(data::promised_of_tallies());
    promised
}

/// Sheet E with each BL and wiring.
fn at_each_bl() -> Vec<Sheet> {
    let of = |sheet: Sheet| [2, 4].map(|bl| Sheet { bl, ..sheet });
    [SHEET_E, SHEET_E_OF_FOUR].map(of).concat()
}

/// Words at random on sheets around their edges, and traces with the most data there are.
pub fn each(run: &mut Run, random: &Random) {
    sheets::each_edge(&mut |sheet| run.count(&sheet, &tally::some_words(random), "short"));
    let words = full(random, LONGEST_TALLY + 1);
    for sheet in at_each_bl() {
        for (length, name) in FULL {
            run.count(&sheet, &words[..length], name);
        }
    }
}

/// Reads and writes behind each other, with all pins at random but PD and CS.
fn full(random: &Random, length: usize) -> Vec<u32> {
    let pins = || random.bits() & (FN | (FN - 1));
    let word = |clock: usize| match clock % 2 {
        0 => PD | pins(),
        _ => PD | CS | pins(),
    };
    (0..length).map(word).collect()
}

impl Run {
    /// Compares the tally, with places for the six counts, for more and for fewer. With fewer nothing is
    /// written; a place behind the sixth stays as it was, and always the one on either side.
    pub fn count(&mut self, sheet: &Sheet, words: &[u32], length: &str) {
        let (wanted, six) = numbers(counts(sheet, words));
        for room in ROOMS {
            let mut left = vec![UNTOUCHED; room + 2];
            let mut places = left.clone();
            let got = call::count(sheet, words, &mut places[1..=room]);
            if room >= COUNTS {
                left[1..=COUNTS].copy_from_slice(&six);
            }
            if places != left {
                let wanted = format!("{left:?} on {:?}", sheet.numbers());
                fail(CALL, words, &wanted, &format!("{places:?}"));
            }
            self.settle(CALL, &on(sheet, length), words, wanted.into(), got.into());
        }
        if wanted == 0 {
            let data = six[COUNTS - 1].into();
            self.coverage.meet(&data::counted_on(sheet, data));
        }
    }
}
