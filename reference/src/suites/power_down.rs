//! Power down on both sides of each of its edges: short traces whose verdicts the papers give.

use super::by_hand::{hand_on, met, Judged};
use super::sleep::{desl_word, low_word, BELOW_PD};
use super::trace::Trace;
use crate::coverage::Coverage;
use crate::pair::Kind;
use crate::random::Random;
use crate::sheet::Sheet;
use crate::word::{CS, FN, PD};

/// CL, BL, and the least clocks from the first word of a read and of a write to PD low: RC, or one more
/// than CL + BL/2 and than WL + 2 if that is later.
const AFTER_ACCESS: [(u32, u32, u32, u32); 6] = [
    (3, 2, 5, 5),
    (3, 4, 6, 5),
    (4, 2, 6, 6),
    (4, 4, 7, 6),
    (5, 2, 7, 7),
    (5, 4, 8, 7),
];

/// A case: its name, its breach at the last word if any, and its words.
type Case = (&'static str, Option<u32>, Vec<u32>);

/// Where PD goes low after a pair, kept and one clock early.
const SPACED: [(&str, Kind); 5] = [
    ("PD low after a read", Kind::Read),
    ("PD low after a write", Kind::Write),
    ("PD low after a regular mode", Kind::Regular),
    ("PD low after an extended mode", Kind::Extended),
    ("PD low after a refresh", Kind::Refresh),
];

/// The cases that need no pair before them, with their breaches.
const BARE: [(&str, Option<u32>); 11] = [
    ("PD low at clock 0", None),
    ("PD low at clock 0, CS low", Some(2)),
    ("CS low while PD stays low", None),
    ("a stray bit while PD stays low", Some(1)),
    ("CS low in the first wake-up word", Some(13)),
    ("CS low and a stray bit in the first wake-up word", Some(1)),
    ("CS low in the second wake-up word", Some(13)),
    ("a pair behind the wake-up words", None),
    ("PD low in the second wake-up word", Some(2)),
    ("PD low behind the wake-up words", None),
    ("PD low with a pair open", Some(2)),
];

/// The cases at the last clock that rule 3 allows and at the next, with their breaches.
const OVERDUE: [(&str, Option<u32>); 5] = [
    ("PD low up to the limit of rule 3", None),
    ("PD low past the limit of rule 3", Some(3)),
    ("PD goes low past the limit of rule 3", Some(3)),
    ("PD goes low past the limit of rule 3, CS low", Some(2)),
    ("CS low in a wake-up word past the limit of rule 3", Some(3)),
];

/// What the cases on a sheet of this wiring must meet.
pub fn promised(wiring: u32) -> Vec<String> {
    let spaced = SPACED.map(|(name, _)| [(name, None), (name, Some(2))]);
    let cases = [&spaced.concat()[..], &BARE, &OVERDUE].concat();
    let names = cases.into_iter();
    names.map(|(name, b)| met(name, b, wiring)).collect()
}

/// All cases on a sheet, each handed to `judged`.
pub fn each(random: &Random, sheet: &Sheet, coverage: &mut Coverage, judged: &mut Judged) {
    let cases = [spaced(random, sheet), bare(random), overdue(random, sheet)];
    for (name, breach, words) in cases.concat() {
        hand_on(sheet, (name, breach, &words), coverage, judged);
    }
}

/// PD low so many clocks after the first word of a pair as are asked for, and one less.
fn spaced(random: &Random, sheet: &Sheet) -> Vec<Case> {
    let of_part = |row: &&(u32, u32, u32, u32)| (row.0, row.1) == (sheet.cl, sheet.bl);
    let &(_, _, read, write) = AFTER_ACCESS.iter().find(of_part).expect("a part");
    let mut cases = Vec::new();
    for (name, kind) in SPACED {
        let spacing = match kind {
            Kind::Read => read,
            Kind::Write => write,
            Kind::Regular | Kind::Extended => sheet.rsc,
            Kind::Refresh => sheet.refc,
        };
        cases.push((name, None, low_after(random, sheet, kind, spacing)));
        cases.push((name, Some(2), low_after(random, sheet, kind, spacing - 1)));
    }
    cases
}

/// A pair, and PD low so many clocks after its first word. Where RSC is 2, the clock before that is the
/// closing word's.
fn low_after(random: &Random, sheet: &Sheet, kind: Kind, spacing: u32) -> Vec<u32> {
    let mut trace = Trace::new(*sheet);
    if kind.is_access() {
        trace.make_ready(random);
    }
    let start = trace.clock();
    let [first, second] = trace.words_of(random, kind, random.below(8));
    trace.word(first);
    if spacing > 1 {
        trace.word(second);
    }
    trace.idle_until(start + spacing);
    trace.word(low_word(random));
    trace.words
}

/// The cases that need no pair before them.
fn bare(random: &Random) -> Vec<Case> {
    let (low, desl) = (|| low_word(random), || desl_word(random));
    let opens = || PD | (random.bits() & BELOW_PD & !CS);
    let (extended, stray) = (PD | 0x4000, 1 << random.between(20, 31));
    let words = [
        vec![low()],
        vec![low() & !CS],
        vec![low(), low() & !CS],
        vec![low(), low() | stray],
        vec![low(), opens()],
        vec![low(), opens() | stray],
        vec![low(), desl(), opens()],
        vec![low(), desl(), desl(), opens() | FN, extended],
        vec![low(), desl(), low()],
        vec![low(), desl(), desl(), low()],
        vec![opens(), low()],
    ];
    let cases = BARE.into_iter().zip(words);
    cases.map(|((name, b), words)| (name, b, words)).collect()
}

/// A refresh, and the last clock that rule 3 allows after it or the next.
fn overdue(random: &Random, sheet: &Sheet) -> Vec<Case> {
    let mut trace = Trace::new(*sheet);
    let refresh = trace.words_of(random, Kind::Refresh, random.below(8));
    trace.add(&refresh);
    let limit = 1 + sheet.d();
    let mut idle = trace.clone();
    idle.idle_until(limit + 1);
    trace.idle_until(sheet.refc);
    trace.word(low_word(random));
    trace.stay_low(random, limit + 1);
    let then = |trace: &Trace, word| [&trace.words[..], &[word]].concat();
    let words = [
        trace.words.clone(),
        then(&trace, random.bits() & BELOW_PD),
        then(&idle, low_word(random)),
        then(&idle, low_word(random) & !CS),
        then(&trace, PD | FN),
    ];
    let cases = OVERDUE.into_iter().zip(words);
    cases.map(|((name, b), words)| (name, b, words)).collect()
}
