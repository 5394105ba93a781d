//! The pin BA2, where its meaning hangs on the wiring and where it does not: short traces whose verdicts
//! the papers give.

use super::by_hand::{hand_on, met, Judged};
use super::trace::Trace;
use crate::coverage::Coverage;
use crate::pair::Kind;
use crate::random::Random;
use crate::sheet::Sheet;
use crate::word::{a, BA2};

/// The cases by name.
const NAMES: [&str; 7] = [
    "BA2 high in a regular mode",
    "BA2 high in an extended mode",
    "BA2 high in a refresh",
    "a write's lower lane with BA2 alone high",
    "a write's lower lane with both pins low",
    "two reads that differ in BA2 alone, RC apart",
    "two reads that differ in BA2 alone, a clock less than RC apart",
];

/// The breach of each case, at its last word, by the sheet's BL and wiring.
fn breaches(bl: u32, wiring: u32) -> [Option<u32>; 7] {
    let reserved = (bl == 4).then_some(5);
    let one_bank = (wiring == 4).then_some(7);
    [Some(4), Some(4), None, None, reserved, None, one_bank]
}

/// What the cases on a sheet of this BL and wiring must meet.
pub fn promised(bl: u32, wiring: u32) -> Vec<String> {
    let cases = NAMES.into_iter().zip(breaches(bl, wiring));
    cases.map(|(name, b)| met(name, b, wiring)).collect()
}

/// All cases on a sheet whose RBD is below RC, each handed to `judged`.
pub fn each(random: &Random, sheet: &Sheet, coverage: &mut Coverage, judged: &mut Judged) {
    let traces = [
        closing(random, sheet, Kind::Regular, BA2, 0),
        closing(random, sheet, Kind::Extended, BA2, 0),
        closing(random, sheet, Kind::Refresh, BA2, 0),
        closing(random, sheet, Kind::Write, BA2, a(13)),
        closing(random, sheet, Kind::Write, 0, BA2 | a(13)),
        two_reads(random, sheet, sheet.rc()),
        two_reads(random, sheet, sheet.rc() - 1),
    ];
    let breaches = breaches(sheet.bl, sheet.wiring);
    for ((name, breach), words) in NAMES.into_iter().zip(breaches).zip(traces) {
        hand_on(sheet, (name, breach, &words), coverage, judged);
    }
}

/// A whole start-up, as far as reads and writes are allowed.
fn started(random: &Random, sheet: &Sheet) -> Trace {
    let mut trace = Trace::new(*sheet);
    trace.make_ready(random);
    trace
}

/// A pair after the start-up, these pins of its closing word put high and low.
pub fn closing(random: &Random, sheet: &Sheet, kind: Kind, high: u32, low: u32) -> Vec<u32> {
    let mut trace = started(random, sheet);
    let [first, second] = trace.words_of(random, kind, random.below(8));
    trace.add(&[first, (second | high) & !low]);
    trace.words
}

/// Two reads so many clocks apart whose first words differ in BA2 alone.
pub fn two_reads(random: &Random, sheet: &Sheet, apart: u32) -> Vec<u32> {
    let mut trace = started(random, sheet);
    let [first, second] = trace.words_of(random, Kind::Read, random.below(8));
    trace.add(&[first, second]);
    trace.idle_until(201 + apart);
    trace.add(&[first ^ BA2, second]);
    trace.words
}
