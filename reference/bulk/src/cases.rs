//! The cases, and what they promise to meet.

use crate::run::{refusals, Run};
use reference::both::Both;
use reference::counts::LONGEST_TALLY;
use reference::coverage::Coverage;
use reference::judge::{LONGEST, RULES};
use reference::random::Random;
use reference::sheet::{SHEET_E, SHEET_E_OF_FOUR};
use reference::suites::{by_hand, load, near, pool, sheets, tally};
use reference::summary::Summary;
use reference::wiring::{self, WIRINGS};
use reference::word::DESL;

/// The lengths on either side of each limit, with their names.
pub const LENGTHS: [(usize, &str); 4] = [
    (LONGEST_TALLY, "65,536 words"),
    (LONGEST_TALLY + 1, "65,537 words"),
    (LONGEST as usize, "16,777,216 words"),
    (LONGEST as usize + 1, "16,777,217 words"),
];

/// A word that may not go low, CS being low.
pub const LOW_CS: u32 = 0;

/// The calls that judge a trace.
const CALLS: [&str; 3] = ["check", "walk", "walk again"];

/// What such a call must meet with a wiring; the longest walks are for eight banks alone.
fn promised_of(call: &str, wiring: u32) -> Vec<String> {
    let name = |length, what: &str| format!("{call}, {length}, {}: {what}", wiring::name(wiring));
    let mut promised = vec![name("short", "no fault")];
    match call {
        "walk again" => promised.push(name("short", "refused 23")),
        _ => promised.extend(RULES.map(|n| name("short", &format!("breach {n}")))),
    }
    let long = match (call, wiring) {
        ("check", _) | (_, 8) => &LENGTHS[..],
        _ => &LENGTHS[..2],
    };
    for &(count, length) in long {
        if count > LONGEST as usize {
            promised.push(name(length, "refused 24"));
            continue;
        }
        promised.push(name(length, "no fault"));
        promised.push(match call {
            "walk again" => name(length, "refused 23"),
            _ => name(length, "breach 2 at the last clock"),
        });
    }
    promised
}

/// What a call must meet on refused sheets, at every length.
pub fn promised_refusals(call: &str) -> Vec<String> {
    let long = LENGTHS.iter().map(|(_, length)| *length);
    let lengths = std::iter::once("short").chain(long);
    lengths.flat_map(|length| refusals(call, length)).collect()
}

/// What a run must meet.
pub fn promised() -> Vec<String> {
    let mut promised = Vec::new();
    for call in CALLS {
        promised.extend(promised_refusals(call));
        promised.extend(WIRINGS.map(|wiring| promised_of(call, wiring)).concat());
    }
    // An early breach ends a walk before 24 is due.
    let early = [("walk", "breach 2"), ("walk again", "refused 23")];
    let name = |(call, what)| format!("{call}, 16,777,217 words, eight banks: {what}");
    promised.extend(early.map(name));
    promised.extend(pool::parts().iter().flat_map(by_hand::promised));
    promised.extend(tally::promised());
    let asleep = LENGTHS[..3].iter().map(|(_, length)| with_sleeps(length));
    let on =
        |length: String| WIRINGS.map(|w| format!("check, {length}, {}: no fault", wiring::name(w)));
    promised.extend(asleep.flat_map(on));
    promised
}

/// Short traces near the edges of the rules, words at random, none at all, and refused sheets.
pub fn short(run: &mut Run, random: &Random) {
    let mut coverage = Default::default();
    for way in 0..6_600 {
        let sheet = pool::sheet(random);
        let words = near::near_words(random, &mut coverage, sheet, way);
        run.all::<Both>(&sheet, &words, "short");
    }
    for _ in 0..1_000 {
        let sheet = pool::sheet(random);
        run.all::<Both>(&sheet, &near::random_words(random), "short");
        run.all::<Both>(&sheet, &[], "short");
    }
    let mut of_cases = Coverage::default();
    for sheet in pool::parts() {
        let mut judged = |_: &mut Coverage, words: &[u32]| run.all::<Both>(&sheet, words, "short");
        by_hand::each(random, &sheet, &mut of_cases, &mut judged);
    }
    run.coverage.add(of_cases);
    for _ in 0..200 {
        let (sheet, words) = (pool::sheet(random), tally::some_words(random));
        tally::count(&mut run.coverage, &sheet, &words);
        run.all::<Both>(&sheet, &words, "short");
    }
    sheets::each_fault(random, 1, &mut |sheet| {
        let words = random.pick(&[&[][..], &[DESL], &[0]]);
        run.all::<Both>(&sheet, words, "short");
    });
    for words in [&[][..], &[DESL], &[0]] {
        refused_sheets(run, words, "short");
    }
}

/// A trace of greatest length and one word more. Right for four banks, it is so for eight too.
pub fn longest(random: &Random) -> Vec<u32> {
    load::mixed(random, &SHEET_E_OF_FOUR, LONGEST as usize + 1)
}

/// Traces at the limits, with each wiring: as they should be, with a breach at the last clock, with one
/// early on, and all of them on sheets that are refused.
pub fn long(run: &mut Run, words: &mut [u32]) {
    for (length, name) in LENGTHS {
        let last = words[length - 1];
        on_both(run, &words[..length], name);
        refused_sheets(run, &words[..length], name);
        words[length - 1] = LOW_CS;
        on_both(run, &words[..length], name);
        refused_sheets(run, &words[..length], name);
        words[length - 1] = last;
        let early = words[100];
        words[100] = LOW_CS;
        on_both(run, &words[..length], name);
        words[100] = early;
    }
}

/// A trace with sleeps at the limits; the longest is checked alone.
pub fn sleeping(run: &mut Run, random: &Random) {
    let words = load::sleeping(random, &SHEET_E_OF_FOUR, LONGEST as usize);
    for (length, name) in &LENGTHS[..3] {
        let (words, name) = (&words[..*length], with_sleeps(name));
        for sheet in [SHEET_E, SHEET_E_OF_FOUR] {
            run.check::<Summary>(&sheet, words, &name);
        }
        if *length < LONGEST as usize {
            run.all::<Summary>(&SHEET_E, words, &name);
        }
    }
}

/// The name of a length of a trace with sleeps.
fn with_sleeps(length: &str) -> String {
    format!("{length} with sleeps")
}

/// Sheet E with each wiring; the longest walks, which take most of the time, on eight banks alone.
fn on_both(run: &mut Run, words: &[u32], name: &str) {
    run.all::<Summary>(&SHEET_E, words, name);
    run.check::<Summary>(&SHEET_E_OF_FOUR, words, name);
    run.count(&SHEET_E_OF_FOUR, words, name);
    if words.len() < LONGEST as usize {
        run.walks::<Summary>(&SHEET_E_OF_FOUR, words, name);
    }
}

/// Sheets that are refused, whatever the words are.
fn refused_sheets(run: &mut Run, words: &[u32], name: &str) {
    for sheet in sheets::refused() {
        run.check::<Summary>(&sheet, words, name);
        run.walks::<Summary>(&sheet, words, name);
        run.count(&sheet, words, name);
    }
}
