//! Each count at its edges on two sheets, of which the relaxed one has that count smaller by one: short
//! traces whose verdicts the papers give.

use super::two_sheets::{count, with_count};
use crate::both::Both;
use crate::coverage::Coverage;
use crate::judge::{judge, Verdict};
use crate::pair::Kind;
use crate::random::Random;
use crate::sheet::Sheet;
use crate::suites::by_wiring;
use crate::suites::sleep::low_word;
use crate::suites::trace::Trace;
use crate::wiring;

/// A rule's number and the count that it asks for; the word of a pair that it counts from, 0 for the first
/// and 1 for the LAL; and that pair, and the pair that is held off, or none for PD going low.
type Edge = (u32, &'static str, u32, Kind, Option<Kind>);

pub const EDGES: [Edge; 9] = [
    (8, "RBD", 0, Kind::Read, Some(Kind::Read)),
    (8, "RWD", 1, Kind::Read, Some(Kind::Write)),
    (8, "WRD", 1, Kind::Write, Some(Kind::Read)),
    (9, "RSC", 0, Kind::Regular, Some(Kind::Extended)),
    (9, "RSC", 0, Kind::Extended, Some(Kind::Write)),
    (10, "REFC", 0, Kind::Refresh, Some(Kind::Refresh)),
    (10, "REFC", 0, Kind::Refresh, Some(Kind::Read)),
    (2, "RSC", 0, Kind::Regular, None),
    (2, "REFC", 0, Kind::Refresh, None),
];

/// Where the last words stand, each time a clock later, and whether the stricter sheet and the relaxed
/// one are in breach there.
const PLACES: [(&str, [bool; 2]); 3] = [
    ("before both edges", [true, true]),
    ("at the relaxed edge", [true, false]),
    ("at the stricter edge", [false, false]),
];

/// The name of a case.
fn met(place: &str, number: u32, count: &str) -> String {
    format!("{place}: {number} {count}")
}

/// What the cases must meet.
pub fn promised() -> Vec<String> {
    let mut promised = Vec::new();
    for (number, count, ..) in EDGES {
        for (place, _) in PLACES {
            promised.extend(by_wiring(&met(place, number, count)));
        }
    }
    promised
}

/// All cases that have this sheet for the relaxed one, whose RBD asks for no more than its RWD and its WRD
/// do; each is handed to `judged` with both sheets.
pub fn each(
    random: &Random,
    relaxed: &Sheet,
    coverage: &mut Coverage,
    judged: &mut dyn FnMut([Sheet; 2], &[u32]),
) {
    for edge in EDGES {
        let (number, name, ..) = edge;
        let stricter = with_count(relaxed, name, count(relaxed, name) + 1);
        let sheets = [stricter, *relaxed];
        for ((place, breaches), later) in PLACES.into_iter().zip(0..) {
            let words = trace(random, sheets, edge, later);
            let clock = words.len() as u32 - 1;
            let verdict = |in_breach| match in_breach {
                true => Verdict::Breach { clock, number },
                false => Verdict::Accepted,
            };
            let verdicts = sheets.map(|sheet| judge::<Both>(&sheet, &words));
            let (met, banks) = (met(place, number, name), wiring::name(relaxed.wiring));
            assert_eq!(verdicts, breaches.map(verdict), "{met} on {sheets:?}");
            coverage.meet(&format!("{met}, {banks}"));
            judged(sheets, &words);
        }
    }
}

/// A start-up that both sheets accept, a pair, and what it holds off: one clock before the edge of the
/// relaxed sheet, or so many clocks later.
pub fn trace(
    random: &Random,
    [stricter, relaxed]: [Sheet; 2],
    (_, name, from, kind, then): Edge,
    later: u32,
) -> Vec<u32> {
    let mut trace = Trace::new(stricter);
    trace.make_ready(random);
    let edge = trace.clock() + from + count(&relaxed, name);
    let pair = trace.words_of(random, kind, 0);
    trace.add(&pair);
    trace.idle_until(edge - 1 + later);
    match then {
        Some(kind) => trace.add(&trace.words_of(random, kind, 1)),
        None => trace.word(low_word(random)),
    }
    trace.words
}
