//! What traces must meet of the limits that they are judged in.

use super::draw::{with_room, NAMES};
use crate::coverage::Coverage;
use crate::judge::first_broken;
use crate::limits::{shown, Limits, Shown};
use crate::sheet::Sheet;
use crate::suites::relaxed::edges::EDGES;
use crate::suites::trace::part_name;
use crate::suites::{by_wiring, pool};
use crate::summary::Summary;
use crate::wiring;

/// Where a trace is in breach.
const NOWHERE: &str = "on no sheet";
const FIRST: &str = "on the first sheet, not on the second";
const SECOND: &str = "on the second sheet, not on the first";
const NOT_ALL: &str = "on both sheets, not at each corner";
const ALL: &str = "at each corner";

/// How the breaches at the corners differ.
const OTHER_CLOCK: &str = "corners in breach at several clocks";
const OTHER_RULE: &str = "corners in breach by several rules";

/// The answers that leave no refusal.
const ANSWERS: [&str; 2] = ["always", "breach"];

/// What the traces must meet together.
pub fn promised() -> Vec<String> {
    let places = [NOWHERE, FIRST, SECOND, NOT_ALL, ALL];
    let mut promised = places.map(|place| by_wiring(&in_breach(place))).concat();
    promised.extend([OTHER_CLOCK, OTHER_RULE].map(str::to_string));
    for answer in ANSWERS {
        promised.extend(pool::parts().iter().map(|part| on_part(part, answer)));
        let alone = NAMES.map(|number| room(&[number], answer));
        promised.extend(alone);
        promised.extend([&[][..], &NAMES[..2], &NAMES].map(|numbers| room(numbers, answer)));
        promised.push(each_tried(answer));
    }
    for (number, count, ..) in EDGES {
        let part = format!("{number} {count}");
        promised.extend(by_wiring(&decides(count, &part)));
    }
    for part in ["3 D", "12 W"] {
        promised.extend(by_wiring(&decides(NAMES[0], part)));
    }
    promised.push("no words: always".to_string());
    promised
}

/// The name of where a trace is in breach.
fn in_breach(place: &str) -> String {
    format!("in breach {place}")
}

/// The name of an answer on a part.
fn on_part(part: &Sheet, answer: &str) -> String {
    let [grade, cl, bl, org, ..] = part.numbers();
    let banks = wiring::name(part.wiring);
    format!("grade {grade}, CL {cl}, BL {bl}, by {org}, {banks}: {answer}")
}

/// The name of an answer by the numbers that have room.
fn room(numbers: &[&str], answer: &str) -> String {
    match numbers {
        [] => format!("one sheet in the limits: {answer}"),
        [one] => format!("{one} alone has room: {answer}"),
        _ if numbers.len() == NAMES.len() => format!("each number has room: {answer}"),
        _ => format!("some numbers have room: {answer}"),
    }
}

/// The name of an answer for which the sheets between the corners were tried too.
fn each_tried(answer: &str) -> String {
    format!("each sheet in the limits tried: {answer}")
}

/// The name of a number that alone has room and decides, and of the rule's part that it breaks.
fn decides(number: &str, part: &str) -> String {
    format!("{number} alone has room, and decides: {part}")
}

/// Counts what a trace meets in the limits. The reference itself is held to this here: a trace that both
/// given sheets accept is accepted at each corner. A part of a rule goes by one of the six numbers at
/// most; rule 12 is strictest at its least, every other at its greatest.
pub fn count(coverage: &mut Coverage, limits: &Limits, words: &[u32]) {
    let corners = limits.corners();
    let on = |sheet: &Sheet| shown::<Summary>(*sheet, words);
    let found: Vec<Shown> = corners.iter().filter_map(on).collect();
    let given = [limits.least, limits.greatest].map(|sheet| on(&sheet).is_some());
    let place = match given {
        [false, false] if found.is_empty() => NOWHERE,
        [false, false] => panic!("accepted at both ends alone of {limits:?}: {words:x?}"),
        [true, false] => FIRST,
        [false, true] => SECOND,
        _ if found.len() < corners.len() => NOT_ALL,
        _ => ALL,
    };
    let banks = wiring::name(limits.least.wiring);
    coverage.meet(&format!("{}, {banks}", in_breach(place)));
    let answer = ANSWERS[usize::from(!found.is_empty())];
    coverage.meet(&on_part(&limits.least, answer));
    coverage.meet(&room(&with_room(limits), answer));
    if words.is_empty() {
        coverage.meet(&format!("no words: {answer}"));
    }
    if limits.narrow(words) && limits.count() > corners.len() as u64 {
        coverage.meet(&each_tried(answer));
    }
    count_unlike(coverage, &found);
    count_deciding(coverage, limits, words, given);
}

/// Counts corners whose breaches differ.
fn count_unlike(coverage: &mut Coverage, found: &[Shown]) {
    if found.windows(2).any(|two| two[0].clock != two[1].clock) {
        coverage.meet(OTHER_CLOCK);
    }
    if found.windows(2).any(|two| two[0].number != two[1].number) {
        coverage.meet(OTHER_RULE);
    }
}

/// Counts a number that alone has room, where the trace is in breach at one of its ends.
fn count_deciding(coverage: &mut Coverage, limits: &Limits, words: &[u32], given: [bool; 2]) {
    let sheet = match given {
        [true, false] => &limits.least,
        [false, true] => &limits.greatest,
        _ => return,
    };
    if let [number] = with_room(limits)[..] {
        let (_, broken) = first_broken(sheet, words);
        let name = decides(number, &part_name(&broken[0]));
        coverage.meet(&format!("{name}, {}", wiring::name(sheet.wiring)));
    }
}
