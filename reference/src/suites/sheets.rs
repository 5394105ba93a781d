//! Sheets at and around their edges, and refused ones, for every suite; and which of their refusals
//! stand together.

use super::pool;
use crate::coverage::Coverage;
use crate::random::Random;
use crate::script::{Call, Packer, PairNumbers};
use crate::sheet::{least_period, Sheet, COUNT_RANGES, GREATEST_PERIOD, NUMBERS};
use crate::sheet::{SHEET_E, SHEET_E_OF_FOUR};
use crate::word::{CS, FN, PD};

const MAX: u32 = u32::MAX;

/// Fields of a sheet with values that are unfit, in the order of their refusals: 20, 34, 21, 22.
const UNFIT: [(usize, u32); 9] = [
    (0, 38),
    (1, 6),
    (2, 3),
    (3, 4),
    (10, 5),
    (10, 0),
    (4, 8501),
    (4, 0),
    (5, 1),
];

/// A field of sheet E with an unfit value for each refusal, in the order in which they are tried, and its
/// number.
pub const SPOILED: [(usize, u32, u32); 5] = [
    (2, 3, 20),
    (10, 5, 34),
    (4, 4499, 21),
    (8, 16, 22),
    (9, 17, 33),
];

/// Sheet E for each of these refusals, with that fault and those of all later ones.
pub fn all_spoiled() -> [Sheet; SPOILED.len()] {
    let spoil = |sheet: Sheet, field: &(usize, u32, u32)| sheet.with(field.0, field.1);
    std::array::from_fn(|first| SPOILED[first..].iter().fold(SHEET_E, spoil))
}

/// The sheet's own refusals, in the order in which they are tried.
pub const REFUSALS: [u32; 5] = [20, 34, 21, 22, 33];

/// What every set of unfit fields must meet: each number ahead of each later one.
pub fn promised_order() -> Vec<String> {
    let later = |i: usize| REFUSALS[i + 1..].iter();
    let ahead = |i| later(i).map(move |other| format!("{} ahead of {other}", REFUSALS[i]));
    (0..REFUSALS.len()).flat_map(ahead).collect()
}

/// What a pair on a refused sheet must meet: each number ahead of the pair's own.
pub fn promised_on_pairs() -> Vec<String> {
    let ahead = |n| [format!("6: {n} ahead of 28"), format!("7: {n} ahead of 26")];
    REFUSALS.map(ahead).concat()
}

/// Counts the sheet's refusal ahead of each later one that stands too.
pub fn count_order(coverage: &mut Coverage, sheet: &Sheet) {
    let mut standing = sheet.refusals();
    let Some(answer) = standing.next() else {
        return;
    };
    for other in standing {
        coverage.meet(&format!("{answer} ahead of {other}"));
    }
}

/// Refused sheets, with each wiring: E with another REFC; with another field unfit; and with that
/// beside a REFC that is too short.
pub fn refused() -> Vec<Sheet> {
    let of = |sheet: Sheet| {
        let with = |refc| Sheet { refc, ..sheet };
        let unfit = |sheet: Sheet| UNFIT.map(|(field, value)| sheet.with(field, value));
        let alone = [14, 15, 17, 64].map(with);
        [&alone[..], &unfit(sheet), &unfit(with(17))].concat()
    };
    [SHEET_E, SHEET_E_OF_FOUR]
        .into_iter()
        .flat_map(of)
        .collect()
}

/// Values of the sheet's field i around its edges on this part, and others that a narrower number
/// would take for fitting ones.
fn edge_values(sheet: &Sheet, i: usize) -> Vec<u32> {
    let edges: Vec<u32> = match i {
        0 => vec![37, 50],
        1 => vec![3, 4, 5],
        2 => vec![2, 4],
        3 => vec![8, 16],
        4 => {
            let grades = [37, 50].into_iter();
            let table = grades.flat_map(|g| [3, 4, 5].map(|cl| least_period(g, cl).unwrap()));
            table.chain([GREATEST_PERIOD]).collect()
        }
        // 16 is an organisation, and no wiring.
        10 => vec![4, 8, 16],
        _ => {
            let (low, high) = COUNT_RANGES[i - 5];
            (low..=high).collect()
        }
    };
    let mut values = vec![0, 1, MAX, MAX - 1, 1 << 31];
    for value in edges {
        let own = sheet.numbers()[i];
        values.extend([value - 1, value, value + 1, value + 256, value + 65_536]);
        values.extend([value | 1 << 31, own + (1 << 8), own + (1 << 16)]);
    }
    values.sort();
    values.dedup();
    values
}

/// A configuration, and a pair read and written on it, which a refused sheet refuses first.
fn trial(random: &Random, sheet: &Sheet) -> [Call; 3] {
    let second = random.pick(&[0, MAX, PD, PD | CS, PD | 0x42]);
    let field = random.pick(&[0, 1, 64, MAX]);
    let written = match random.below(4) {
        0 => PairNumbers::Refresh,
        1 => PairNumbers::Regular(field),
        2 => PairNumbers::Extended(field),
        _ => PairNumbers::Access([0, 0, field, 0, 0, 0]),
    };
    [
        pool::config(random, sheet),
        Call::ReadPair(PD | random.pick(&[0, FN, CS]), second),
        Call::WritePair(written),
    ]
}

/// Counts the sheet's refusal ahead of the one that the pair that is read or written has of its own.
fn count_pairs(coverage: &mut Coverage, sheet: &Sheet, calls: &[Call; 3]) {
    let Some(n) = sheet.refusal() else {
        return;
    };
    let [_, Call::ReadPair(first, second), Call::WritePair(written)] = calls else {
        return;
    };
    if first & CS != 0 || second & PD == 0 {
        coverage.meet(&format!("6: {n} ahead of 28"));
    }
    if matches!(written, PairNumbers::Extended(64..)) {
        coverage.meet(&format!("7: {n} ahead of 26"));
    }
}

/// Each field alone at and around each of its edges, on every part and on those that 33 refuses;
/// then every corner.
pub fn each_edge(visit: &mut dyn FnMut(Sheet)) {
    for part in [pool::parts(), pool::short_parts()].concat() {
        for i in 0..NUMBERS {
            for value in edge_values(&part, i) {
                visit(part.with(i, value));
            }
        }
    }
    for corner in [pool::corners(), pool::short_corners()].concat() {
        visit(corner);
    }
}

/// Every set of unfit fields, so that the order of the refusals shows.
pub fn each_fault(random: &Random, rounds: u32, visit: &mut dyn FnMut(Sheet)) {
    for _ in 0..rounds {
        for unfit in 0..1 << NUMBERS {
            let good = pool::sheet(random);
            let mut numbers = good.numbers();
            for i in (0..NUMBERS).filter(|i| unfit >> i & 1 == 1) {
                numbers[i] = random.pick(&edge_values(&good, i));
            }
            visit(Sheet::from_numbers(numbers));
        }
    }
}

/// Both of these as configurations of the replay program.
pub fn trials(random: &Random, packer: &mut Packer, coverage: &mut Coverage, scale: u32) {
    let mut visit = |sheet: Sheet| {
        let calls = trial(random, &sheet);
        count_order(coverage, &sheet);
        count_pairs(coverage, &sheet, &calls);
        packer.group(&calls);
    };
    each_edge(&mut visit);
    each_fault(random, 2 * scale, &mut visit);
}
