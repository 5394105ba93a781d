//! The cases of the check on every sheet in limits, and what they promise to meet.

use crate::cases::{LENGTHS, LOW_CS};
use crate::last_clock;
use crate::run::Run;
use reference::both::Both;
use reference::coverage::Coverage;
use reference::judge::RULES;
use reference::limits::Limits;
use reference::random::Random;
use reference::sheet::{Sheet, SHEET_E, SHEET_E_OF_FOUR};
use reference::suites::limits::{self as suite, refused};
use reference::suites::{load, near, pool, sheets};
use reference::summary::Summary;
use reference::wiring::{self, WIRINGS};

/// The longest trace that is taken, and one word more.
pub const LONG: [(usize, &str); 2] = [LENGTHS[2], LENGTHS[3]];

/// The length of the traces in limits with many corners.
const MANY_CORNERS: (usize, &str) = LENGTHS[0];

/// Names of an answer at lengths, in limits of a wiring.
fn names(lengths: &[&str], wiring: u32, answer: &str) -> Vec<String> {
    let banks = wiring::name(wiring);
    let name = |length| format!("limits, {length}, {banks}: {answer}");
    lengths.iter().map(name).collect()
}

/// What a run must meet.
pub fn promised() -> Vec<String> {
    let [(_, longest), (_, longer)] = LONG;
    let (_, many) = MANY_CORNERS;
    let mut promised = suite::promised_directed();
    promised.extend(refused::promised_ahead_of_24());
    for wiring in WIRINGS {
        let mut promise = |lengths: &[&str], answer: &str| {
            promised.extend(names(lengths, wiring, answer));
        };
        RULES.for_each(|number| promise(&["short"], &format!("breach {number}")));
        for number in [20, 34, 21, 22, 33, 35] {
            promise(&["short", longest, longer], &format!("refused {number}"));
        }
        promise(&["short", many, longest], "no fault");
        promise(&[many, longest], "breach 2 at the last clock");
        promise(&[longest], "breach 2");
        promise(&[longer], "refused 24");
    }
    for number in last_clock::NUMBERS {
        let breach = format!("breach {number} at the last clock");
        promised.extend(names(&[longest], 8, &breach));
    }
    promised
}

/// Short traces: those with the papers' verdicts, others near the rules, and limits that are refused.
pub fn short(run: &mut Run, random: &Random) {
    let mut coverage = Coverage::default();
    for part in pool::parts() {
        for case in suite::directed(random, &part) {
            case.settle(random, &mut coverage);
            run.limits::<Both>(&case.limits, &case.words, "short");
        }
    }
    for number in 0..500 {
        let limits = suite::some_limits(random);
        for words in suite::traces(random, &limits, number) {
            run.limits::<Both>(&limits, &words, "short");
        }
    }
    // In limits of one sheet no choice is left of what to show.
    for way in 0..2_000 {
        let limits = suite::about(random, pool::sheet(random), &[]);
        let words = near::near_words(random, &mut Coverage::default(), limits.least, way);
        run.limits::<Both>(&limits, &words, "short");
    }
    refused::each(random, 1, &mut coverage, &mut |limits| {
        run.limits::<Both>(limits, suite::some_words(random), "short");
    });
    run.coverage.add(coverage);
}

/// Traces in limits with room for each count, and so 32 corners: right on the sheet with the greatest
/// ones, and with a breach at the last clock.
pub fn many_corners(run: &mut Run, random: &Random) {
    let (length, name) = MANY_CORNERS;
    for sheet in [SHEET_E, SHEET_E_OF_FOUR] {
        let with = |rbd, rwd, wrd, rsc, refc| Sheet {
            rbd,
            rwd,
            wrd,
            rsc,
            refc,
            ..sheet
        };
        let (least, greatest) = (with(2, 3, 1, 2, 18), with(4, 5, 3, 7, 20));
        let limits = Limits { least, greatest };
        let mut words = load::mixed(random, &greatest, length);
        run.limits::<Summary>(&limits, &words, name);
        words[length - 1] = LOW_CS;
        run.limits::<Summary>(&limits, &words, name);
    }
}

/// Limits of two sheets, the second of which is E, with each wiring.
fn two_corners() -> [Limits; 2] {
    let [e, of_four] = [SHEET_E, SHEET_E_OF_FOUR];
    let up_to = |least, greatest| Limits { least, greatest };
    [
        up_to(Sheet { rwd: 2, ..e }, e),
        up_to(Sheet { rsc: 6, ..of_four }, of_four),
    ]
}

/// Traces as long as allowed and longer, which are right on E with each wiring: as they are, with a breach
/// at the last clock and with one early on; and in limits that are refused.
pub fn long(run: &mut Run, words: &mut [u32]) {
    for (length, name) in LONG {
        for limits in two_corners() {
            run.limits::<Summary>(&limits, &words[..length], name);
            for place in [length - 1, 100] {
                let kept = std::mem::replace(&mut words[place], LOW_CS);
                run.limits::<Summary>(&limits, &words[..length], name);
                words[place] = kept;
            }
        }
        refused_limits(run, &words[..length], name);
    }
}

/// Limits that are refused, whatever the words are: by each sheet, and by 35.
fn refused_limits(run: &mut Run, words: &[u32], name: &str) {
    let mut refused = |least, greatest| {
        let limits = Limits { least, greatest };
        refused::count_order(&mut run.coverage, &limits, words.len());
        run.limits::<Summary>(&limits, words, name);
    };
    for Limits { least, greatest } in two_corners() {
        refused(greatest, least);
        refused(least, Sheet { bl: 2, ..greatest });
        for sheet in sheets::refused() {
            refused(sheet, greatest);
            refused(least, sheet);
        }
    }
}
