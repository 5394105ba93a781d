//! One count decides: each rule that asks for it, with the count at and around its limits. Short traces
//! whose verdicts the papers give.

use super::case::{at_the_last, everywhere, name, Case, WHERE};
use super::draw::{range, some_place, PERIOD};
use crate::limits::Limits;
use crate::random::Random;
use crate::sheet::{Sheet, LIMITED};
use crate::suites::relaxed::edges::{trace, EDGES};
use crate::suites::relaxed::two_sheets::{count, with_count};

/// The most clocks from the least of the count to its greatest.
const ROOM: u32 = 3;

/// The name of a rule and the count that it asks for.
fn part(number: u32, count: &str, low: bool) -> String {
    let then = if low { ", PD going low" } else { "" };
    format!("{number} {count}{then}")
}

/// What the cases must meet.
pub fn promised() -> Vec<String> {
    let parts = EDGES.map(|(number, count, _, _, then)| part(number, count, then.is_none()));
    parts.iter().flat_map(|part| everywhere(part)).collect()
}

/// All cases on a part whose RBD asks for no more than its RWD and its WRD do.
pub fn each(random: &Random, sheet: &Sheet) -> Vec<Case> {
    let mut cases = Vec::new();
    for edge in EDGES {
        let (number, counted, _, _, then) = edge;
        let limits = limits(random, sheet, counted);
        let least = count(&limits.least, counted);
        let room = count(&limits.greatest, counted) - least;
        for (place, later) in WHERE.into_iter().zip([0, 1, room, room + 1]) {
            let words = trace(random, [limits.greatest, limits.least], edge, later);
            let (spacing, length) = (least - 1 + later, words.len());
            cases.push(Case {
                name: name(&part(number, counted, then.is_none()), place),
                limits,
                words,
                verdict: Box::new(move |sheet| {
                    at_the_last(count(sheet, counted) > spacing, number, length)
                }),
            });
        }
    }
    cases
}

/// Limits with room for one count above the sheet's. At times each other number has room too: the
/// other counts below the sheet's, and the period on both sides.
fn limits(random: &Random, sheet: &Sheet, counted: &str) -> Limits {
    let mut limits = Limits {
        least: *sheet,
        greatest: *sheet,
    };
    let others: Vec<usize> = match random.below(3) {
        0 => vec![],
        1 => vec![some_place(random)],
        _ => LIMITED.collect(),
    };
    for place in others {
        let (low, high) = range(sheet, place);
        let own = sheet.numbers()[place];
        limits.least = limits.least.with(place, random.between(low, own));
        if place == PERIOD {
            limits.greatest = limits.greatest.with(place, random.between(own, high));
        }
    }
    let own = count(sheet, counted);
    let most = own + random.between(1, ROOM);
    Limits {
        least: with_count(&limits.least, counted, own),
        greatest: with_count(&limits.greatest, counted, most),
    }
}
