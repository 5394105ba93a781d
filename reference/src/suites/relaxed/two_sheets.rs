//! Two sheets of which the second is the first relaxed.

use crate::random::Random;
use crate::sheet::{least_period, Sheet};
use crate::suites::pool;

/// The five counts by name, in the paper's order.
pub const COUNTS: [&str; 5] = ["RBD", "RWD", "WRD", "RSC", "REFC"];

/// Whether the second sheet is the first relaxed: both are accepted, they agree in all but the grade
/// and the counts, and no count of the second is larger.
pub fn relaxes(stricter: &Sheet, relaxed: &Sheet) -> bool {
    let rest = |s: &Sheet| (s.cl, s.bl, s.org, s.period, s.wiring);
    let accepted = |s: &Sheet| s.refusal().is_none();
    let mut counts = stricter.counts().into_iter().zip(relaxed.counts());
    accepted(stricter)
        && accepted(relaxed)
        && rest(stricter) == rest(relaxed)
        && counts.all(|(old, new)| new <= old)
}

/// The names of the counts in which two sheets differ.
pub fn differing(first: &Sheet, second: &Sheet) -> Vec<&'static str> {
    let counts = first.counts().into_iter().zip(second.counts());
    let named = COUNTS.into_iter().zip(counts);
    let other = named.filter(|(_, (old, new))| old != new);
    other.map(|(name, _)| name).collect()
}

/// The place of a count among the five.
fn place(name: &str) -> usize {
    let known = COUNTS.iter().position(|&count| count == name);
    known.expect("a count")
}

/// A count of the sheet by its name.
pub fn count(sheet: &Sheet, name: &str) -> u32 {
    sheet.counts()[place(name)]
}

/// The sheet with another value of a count.
pub fn with_count(sheet: &Sheet, name: &str, count: u32) -> Sheet {
    sheet.with(5 + place(name), count)
}

/// A sheet at random and one that relaxes it, at times of the other grade.
pub fn some_sheets(random: &Random) -> [Sheet; 2] {
    let stricter = pool::sheet(random);
    let mut relaxed = stricter;
    let ranges = COUNTS.into_iter().zip(pool::count_ranges(stricter.cl));
    let chosen = chosen(random);
    for (name, (least, _)) in ranges.filter(|(name, _)| chosen.contains(name)) {
        let count = smaller(random, count(&stricter, name), least);
        relaxed = with_count(&relaxed, name, count);
    }
    let grade = if stricter.grade == 37 { 50 } else { 37 };
    let fits = least_period(grade, stricter.cl).is_some_and(|least| least <= stricter.period);
    if fits && random.once_in(3) {
        relaxed.grade = grade;
    }
    [stricter, relaxed]
}

/// The counts that are made smaller: none, a single one, or some.
fn chosen(random: &Random) -> Vec<&'static str> {
    match random.below(8) {
        0 => vec![],
        1..=4 => vec![random.pick(&COUNTS)],
        _ => COUNTS.into_iter().filter(|_| random.once_in(2)).collect(),
    }
}

/// A count that is smaller by one, the least there is, or any between, unless it is the least already.
fn smaller(random: &Random, count: u32, least: u32) -> u32 {
    match random.below(3) {
        0 => least.max(count - 1),
        1 => least,
        _ => random.between(least, count),
    }
}
