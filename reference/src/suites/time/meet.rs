//! What the lines must show together: counts, rests, products and periods at their edges, and the order
//! of the refusals.

use super::sentence::told;
use crate::judge::LONGEST;
use crate::sheet::{least_period, Sheet, GREATEST_PERIOD};
use crate::suites::by_wiring;
use crate::suites::sheets::REFUSALS;
use crate::wiring;

/// Counts that are met on accepted sheets, and the answer there.
const COUNTS: [(u32, &str); 7] = [
    (0, "time 0 0"),
    (1, "time"),
    (2, "time"),
    (LONGEST - 1, "time"),
    (LONGEST, "time"),
    (LONGEST + 1, "refused 32"),
    (u32::MAX, "refused 32"),
];

/// Rests that are met: on either side of a whole nanosecond and of a half.
pub const RESTS: [u64; 6] = [0, 1, 499, 500, 501, 999];

/// Products in picoseconds that a narrower number does not hold.
pub const SIZES: [(u64, &str); 2] = [(1 << 31, "2^31 ps"), (1 << 32, "2^32 ps")];

/// How a product stands to such a size.
const LAST: &str = "the last count below";
const FIRST: &str = "the first count at or above";
const EXACT: &str = "a count at exactly";

/// How long the time is in which a rest is left.
const SHORT: &str = "below 2^32 ps";
const LONG: &str = "from 2^32 ps on";

/// What the lines must show.
pub fn promised() -> Vec<String> {
    let of_count = |(count, answer)| counted(count, answer);
    let mut promised = COUNTS.map(of_count).to_vec();
    for rest in RESTS {
        promised.extend([SHORT, LONG].map(|length| left(rest, length)));
    }
    for (_, size) in SIZES {
        promised.extend([LAST, FIRST, EXACT].map(|how| format!("{how} {size}")));
    }
    for grade in [37, 50] {
        for cl in [3, 4, 5] {
            let ends = ends(grade, cl).expect("a part");
            promised.extend(ends.map(|(period, answer)| at_end(grade, cl, period, answer)));
        }
    }
    let mut promised: Vec<String> = promised.iter().flat_map(|n| by_wiring(n)).collect();
    for number in REFUSALS {
        promised.extend([LONGEST, LONGEST + 1].map(|count| refused(number, count)));
    }
    promised
}

/// The names of what a right line shows.
pub fn names(sheet: &Sheet, count: u32, line: &str) -> Vec<String> {
    let mut names = Vec::new();
    if sheet.refusal().is_none() && COUNTS.iter().any(|(of, _)| *of == count) {
        names.push(counted(count, answer(count, line)));
    }
    if let (1.., Some((_, rest))) = (count, told(line)) {
        names.extend(product(sheet.period, count, rest));
    }
    for (period, due) in ends(sheet.grade, sheet.cl).into_iter().flatten() {
        if period == sheet.period && line.starts_with(due) {
            names.push(at_end(sheet.grade, sheet.cl, period, due));
        }
    }
    let banks = wiring::name(sheet.wiring);
    let with_banks = names.iter().map(|name| format!("{name}, {banks}"));
    let of_sheet = sheet.refusal().map(|number| refused(number, count));
    with_banks.chain(of_sheet).collect()
}

/// A line as it is counted: whole for a refusal and where there are no words.
fn answer(count: u32, line: &str) -> &str {
    match line.split_once(' ') {
        Some(("time", _)) if count > 0 => "time",
        _ => line,
    }
}

/// The name of an answer by its count.
fn counted(count: u32, answer: &str) -> String {
    format!("count {count}: {answer}")
}

/// The name of a rest that is left.
fn left(rest: u64, length: &str) -> String {
    format!("rest {rest}, {length}")
}

/// The names of a product by its rest and its size.
fn product(period: u32, count: u32, rest: u64) -> Vec<String> {
    let period = u64::from(period);
    let product = u64::from(count) * period;
    let mut names = Vec::new();
    if RESTS.contains(&rest) {
        let length = if product < 1 << 32 { SHORT } else { LONG };
        names.push(left(rest, length));
    }
    for (size, name) in SIZES {
        if product < size && product + period >= size {
            names.push(format!("{LAST} {name}"));
        }
        if product >= size && product - period < size {
            names.push(format!("{FIRST} {name}"));
        }
        if product == size {
            names.push(format!("{EXACT} {name}"));
        }
    }
    names
}

/// The periods at both ends of the range of a grade and CL, and past them, with the answers there; none
/// if the table has no such grade or CL.
fn ends(grade: u32, cl: u32) -> Option<[(u32, &'static str); 4]> {
    let least = least_period(grade, cl)?;
    Some([
        (least - 1, "refused 21"),
        (least, "time"),
        (GREATEST_PERIOD, "time"),
        (GREATEST_PERIOD + 1, "refused 21"),
    ])
}

/// The name of an answer at an end of the period's range.
fn at_end(grade: u32, cl: u32, period: u32, answer: &str) -> String {
    format!("grade {grade}, CL {cl}, {period} ps: {answer}")
}

/// The name of a sheet's own refusal by what the count alone would have.
fn refused(number: u32, count: u32) -> String {
    match count {
        ..=LONGEST => format!("{number} with a count that is allowed"),
        _ => format!("{number} ahead of 32"),
    }
}
