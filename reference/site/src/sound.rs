//! Whether all that is timed answers as the reference does, without which its speed would say nothing.

use crate::call::Form;
use crate::layouts::LAYOUTS;
use reference::both::Both;
use reference::coverage::Coverage;
use reference::hand_in::site_number;
use reference::random::Random;
use reference::script::bytes;
use reference::sheet::Sheet;
use reference::suites::{load, long, near, pool, power_down, runs};

/// Tries every checker on thousands of traces: near the edges of the rules, at random, about power down,
/// with runs, and damaged.
pub fn try_all(random: &Random) {
    let mut coverage = Coverage::default();
    for way in 0..6_000 {
        let sheet = pool::sheet(random);
        let words = near::near_words(random, &mut coverage, sheet, way);
        same_answers(&sheet, &words);
        same_answers(&sheet, &near::random_words(random));
    }
    for sheet in pool::parts() {
        power_down::each(random, &sheet, &mut coverage, &mut |_, words| {
            same_answers(&sheet, words)
        });
    }
    for sheet in runs::sheets(random) {
        runs::each(random, &sheet, &mut coverage, &mut |_, words| {
            same_answers(&sheet, words)
        });
    }
    for _ in 0..12 {
        damaged(random);
    }
}

/// Traces of some thousand words that keep every rule, and the same with a bit turned over.
fn damaged(random: &Random) {
    let sheet = long::quick_sheet(random);
    for load in [load::busy, load::mixed, load::sleeping] {
        let words = load(random, &sheet, 4_000);
        same_answers(&sheet, &words);
        for _ in 0..20 {
            let mut damaged = words.clone();
            damaged[random.below(4_000) as usize] ^= 1 << random.below(21);
            same_answers(&sheet, &damaged);
        }
    }
}

/// Every checker in every layout, held to the reference.
fn same_answers(sheet: &Sheet, words: &[u32]) {
    let trace = bytes(words);
    let wanted = site_number::<Both>(sheet, &trace);
    for form in Form::of(sheet) {
        assert_eq!(form.check(sheet, &trace), wanted, "the archive: {sheet:?}");
    }
    let sum = sum(words);
    for layout in LAYOUTS {
        assert_eq!((layout.c)(sheet, &trace), wanted, "C: {sheet:?}");
        assert_eq!((layout.rust)(sheet, &trace), wanted, "Rust: {sheet:?}");
        assert_eq!((layout.sum)(sheet, &trace), sum, "the sum");
        if sheet.wiring == 8 {
            assert_eq!((layout.fcram)(sheet, &trace), wanted, "its copy: {sheet:?}");
        }
    }
}

/// The sum of all words, with nothing carried past 32 bits.
pub fn sum(words: &[u32]) -> u32 {
    let add = |sum: u32, word: &u32| sum.wrapping_add(*word);
    words.iter().fold(0, add)
}
