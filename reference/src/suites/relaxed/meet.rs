//! What traces near the rules must meet on two sheets, of which the second relaxes the first.

use super::edges::EDGES;
use super::order;
use super::two_sheets::{differing, COUNTS};
use crate::coverage::Coverage;
use crate::judge::{first_broken, RULES};
use crate::sheet::Sheet;
use crate::suites::trace::part_name;
use crate::suites::{by_wiring, pool};
use crate::wiring;
use std::cmp::Ordering;

/// How a later breach on the relaxed sheet stands to that on the stricter one.
const LATER: [&str; 3] = [
    "later, by a lower rule",
    "later, by the same rule",
    "later, by a higher rule",
];

/// What the traces must meet together.
pub fn promised() -> Vec<String> {
    let mut promised = Vec::new();
    for (number, count, ..) in EDGES {
        let part = format!("{number} {count}");
        promised.extend(by_wiring(&on_relaxed_alone(&[count], &part)));
    }
    let parts = pool::parts();
    promised.extend(parts.iter().map(|sheet| on_both(&part_of(sheet))));
    for same in [true, false] {
        let alone = COUNTS.map(|count| on_both(&difference(&[count], same)));
        promised.extend(alone);
        promised.push(on_both(&difference(&[], same)));
        promised.push(on_both(&difference(&COUNTS, same)));
    }
    promised.extend(LATER.map(in_breach));
    promised.extend(RULES.map(|number| in_breach(&at_one_clock([number; 2]))));
    promised.extend(order::NUMBERS.map(|numbers| in_breach(&at_one_clock(numbers))));
    promised
}

/// Which counts are smaller on the relaxed sheet.
fn smaller(counts: &[&str]) -> String {
    match counts {
        [] => "no count smaller".to_string(),
        [one] => format!("{one} alone smaller"),
        _ => "several counts smaller".to_string(),
    }
}

/// In what the sheets differ.
fn difference(counts: &[&str], same_grade: bool) -> String {
    let grade = if same_grade { "the same" } else { "another" };
    format!("{}, {grade} grade", smaller(counts))
}

/// The numbers of a sheet that a relaxed one keeps, but for the period.
fn part_of(sheet: &Sheet) -> String {
    let Sheet { cl, bl, org, .. } = sheet;
    let banks = wiring::name(sheet.wiring);
    format!("CL {cl}, BL {bl}, by {org}, {banks}")
}

/// The name of a trace that both sheets accept.
fn on_both(what: &str) -> String {
    format!("accepted on both: {what}")
}

/// The name of a trace that the relaxed sheet alone accepts, by the rule's part that the stricter breaks.
fn on_relaxed_alone(counts: &[&str], part: &str) -> String {
    let smaller = smaller(counts);
    format!("accepted on the relaxed sheet alone, {smaller}: {part}")
}

/// The name of a trace that is in breach on both sheets.
fn in_breach(how: &str) -> String {
    format!("in breach on both: {how}")
}

/// The rules at a clock that is the same on both.
fn at_one_clock([old, new]: [u32; 2]) -> String {
    match old == new {
        true => format!("at the same clock by rule {old}"),
        false => format!("at the same clock by rule {old}, then {new}"),
    }
}

/// Counts what a trace meets of both sheets. The reference itself is held to the sentence here.
pub fn count(coverage: &mut Coverage, [stricter, relaxed]: [Sheet; 2], words: &[u32]) {
    let (kept, broken) = first_broken(&stricter, words);
    let (kept_longer, still_broken) = first_broken(&relaxed, words);
    let counts = differing(&stricter, &relaxed);
    match (broken.first(), still_broken.first()) {
        (None, None) => {
            let same_grade = stricter.grade == relaxed.grade;
            coverage.meet(&on_both(&part_of(&relaxed)));
            coverage.meet(&on_both(&difference(&counts, same_grade)));
        }
        (Some(lowest), None) => {
            let name = on_relaxed_alone(&counts, &part_name(lowest));
            let banks = wiring::name(relaxed.wiring);
            coverage.meet(&format!("{name}, {banks}"));
        }
        (Some(old), Some(new)) => {
            let how = match (kept_longer.clock == kept.clock, new.number.cmp(&old.number)) {
                (true, _) => &at_one_clock([old.number, new.number]),
                (false, Ordering::Less) => LATER[0],
                (false, Ordering::Equal) => LATER[1],
                (false, Ordering::Greater) => LATER[2],
            };
            coverage.meet(&in_breach(how));
        }
        (None, Some(_)) => {
            panic!("accepted on {stricter:?} and not on {relaxed:?}: {words:x?}")
        }
    }
}
