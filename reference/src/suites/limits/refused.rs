//! Refusals of a check within limits: the first sheet's own, the second's own, and 35.

use super::draw::{range, NAMES};
use crate::coverage::Coverage;
use crate::limits::Limits;
use crate::random::Random;
use crate::sheet::{Sheet, LIMITED, SHEET_E, SHEET_E_OF_FOUR};
use crate::suites::sheets::{each_fault, refused, REFUSALS};
use crate::suites::{by_wiring, names, pool, refusals};
use crate::wiring;

/// The other numbers, in which the sheets have to be alike, and the values that they can have.
const ALIKE: [(&str, usize, &[u32]); 5] = [
    ("grade", 0, &[37, 50]),
    ("CL", 1, &[3, 4, 5]),
    ("BL", 2, &[2, 4]),
    ("organisation", 3, &[16, 8]),
    ("wiring", 10, &[8, 4]),
];

/// How one of the six numbers stands on the first sheet to that on the second, and whether 35 is due.
type Stands = (&'static str, bool);

const ABOVE: Stands = ("above by one", true);
const ABOVE_OTHERS_BELOW: Stands = ("above by one, the others below", true);
const FAR_ABOVE: Stands = ("at its greatest above its least", true);
const EQUAL: Stands = ("equal, the others below", false);
const BELOW: Stands = ("below by one", false);

/// What the cases must meet.
pub fn promised() -> Vec<String> {
    let mut promised = refusals(15, "refused");
    promised.extend(names(15, &["refused 34", "refused 35"]));
    for number in REFUSALS {
        let later = REFUSALS.map(|n| ahead((number, "of the first"), (n, "of the second")));
        promised.extend(later);
        for of in ["of the first", "of the second"] {
            promised.push(ahead((number, of), (35, "of both")));
        }
    }
    for (field, ..) in ALIKE {
        promised.extend(["equal", "below"].map(|numbers| differs(field, numbers)));
    }
    for number in NAMES {
        for how in [ABOVE, ABOVE_OTHERS_BELOW, FAR_ABOVE, EQUAL, BELOW] {
            promised.extend(by_wiring(&stands(number, how)));
        }
    }
    promised
}

/// What limits must meet where the trace is too long.
pub fn promised_ahead_of_24() -> Vec<String> {
    let of_sheets = |of| REFUSALS.map(move |number| (number, of));
    let ahead_of_24 = |refusal| ahead(refusal, (24, "of the trace"));
    let of_both = [(35, "of both")].into_iter();
    let sheets = ["of the first", "of the second"]
        .into_iter()
        .flat_map(of_sheets);
    sheets.chain(of_both).map(ahead_of_24).collect()
}

/// The name of a refusal ahead of a later one that stands too.
fn ahead((first, of): (u32, &str), (later, of_later): (u32, &str)) -> String {
    format!("{first} {of} ahead of {later} {of_later}")
}

/// The name of a field in which the sheets alone differ, the six numbers being as told.
fn differs(field: &str, numbers: &str) -> String {
    format!("another {field}, the numbers {numbers}: refused 35")
}

/// The name of how a number stands on the first sheet to that on the second.
fn stands(number: &str, (how, due): Stands) -> String {
    let refused = if due { "refused 35" } else { "not refused" };
    format!("{number} {how}: {refused}")
}

/// All limits, each handed to `judged`.
pub fn each(random: &Random, scale: u32, coverage: &mut Coverage, judged: &mut dyn FnMut(&Limits)) {
    let mut judged = |coverage: &mut Coverage, least, greatest| {
        let limits = Limits { least, greatest };
        count_order(coverage, &limits, 0);
        judged(&limits);
    };
    for part in pool::parts() {
        unlike(random, &part, coverage, &mut judged);
        crossed(random, &part, coverage, &mut judged);
    }
    let unfit = refused();
    for &first in &unfit {
        for good in [SHEET_E, SHEET_E_OF_FOUR] {
            judged(coverage, first, good);
            judged(coverage, good, first);
        }
        unfit
            .iter()
            .for_each(|&second| judged(coverage, first, second));
    }
    let mut last = SHEET_E;
    each_fault(random, scale, &mut |sheet| {
        let other = random.pick(&[last, sheet, pool::sheet(random)]);
        judged(coverage, sheet, other);
        judged(coverage, other, sheet);
        last = sheet;
    });
}

/// Counts the refusal that stands first for so many words ahead of each later one.
pub fn count_order(coverage: &mut Coverage, limits: &Limits, length: usize) {
    let standing = limits.refusals(length);
    if let Some((first, later)) = standing.split_first() {
        later
            .iter()
            .for_each(|other| coverage.meet(&ahead(*first, *other)));
    }
}

/// Takes the first sheet and the second.
type Judged<'a> = dyn FnMut(&mut Coverage, Sheet, Sheet) + 'a;

/// The part and another that differs in one field, the numbers equal, and again with each below.
fn unlike(random: &Random, part: &Sheet, coverage: &mut Coverage, judged: &mut Judged) {
    for (field, place, values) in ALIKE {
        let own = part.numbers()[place];
        for &value in values.iter().filter(|&&value| value != own) {
            let other = part.with(place, value);
            for (numbers, second) in [("equal", other), ("below", lifted(random, &other))] {
                due(true, *part, second);
                judged(coverage, *part, second);
                coverage.meet(&differs(field, numbers));
            }
        }
    }
}

/// Holds the reference to 35 where it is due, and to no refusal where it is not.
fn due(due: bool, least: Sheet, greatest: Sheet) {
    let refusals = Limits { least, greatest }.refusals(0);
    let wanted = due.then_some((35, "of both"));
    assert_eq!(refusals.first().copied(), wanted, "{least:?}, {greatest:?}");
}

/// The sheet with each of the six numbers larger by some.
fn lifted(random: &Random, sheet: &Sheet) -> Sheet {
    LIMITED.fold(*sheet, |lifted, place| {
        let (own, (_, high)) = (sheet.numbers()[place], range(sheet, place));
        lifted.with(place, random.between(own + 1, high))
    })
}

/// One number above on the first sheet, equal and below, on two sheets that are alike in the rest.
fn crossed(random: &Random, part: &Sheet, coverage: &mut Coverage, judged: &mut Judged) {
    let banks = wiring::name(part.wiring);
    for (place, number) in LIMITED.zip(NAMES) {
        let own = part.numbers()[place];
        let (low, high) = range(part, place);
        let (higher, roomy) = (part.with(place, own + 1), lifted(random, part));
        let two = [
            (ABOVE, higher, *part),
            (ABOVE_OTHERS_BELOW, higher, roomy.with(place, own)),
            (FAR_ABOVE, part.with(place, high), part.with(place, low)),
            (EQUAL, *part, roomy.with(place, own)),
            (BELOW, *part, higher),
        ];
        for (how, first, second) in two {
            due(how.1, first, second);
            judged(coverage, first, second);
            coverage.meet(&format!("{}, {banks}", stands(number, how)));
        }
    }
}
