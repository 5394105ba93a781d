//! Sheets, requests and pairs that the suites draw from.

use crate::pair::{self, column_pins, Kind, Operation, Request};
use crate::random::Random;
use crate::script::Call;
use crate::sheet::{least_period, Sheet, COUNT_RANGES, GREATEST_PERIOD, LEAST_REFC_AT_CL_4};
use crate::wiring::{greatest_bank, greatest_row, WIRINGS};
use crate::word::{a, BA2, BANK, FN, ROW};

/// A call that starts afresh on a sheet; of eight banks, at random that with the wiring or without.
pub fn config(random: &Random, sheet: &Sheet) -> Call {
    match sheet.wiring {
        8 if random.once_in(2) => Call::Config(sheet.without_wiring()),
        _ => Call::ConfigWired(sheet.numbers()),
    }
}

/// Every grade, CL, BL and organisation, at a period and counts in the middle, with each wiring:
/// accepted sheets.
pub fn parts() -> Vec<Sheet> {
    let mut sheets = Vec::new();
    for grade in [37, 50] {
        for cl in [3, 4, 5] {
            for bl in [2, 4] {
                for org in [16, 8] {
                    let of = |w| Sheet::from_numbers([grade, cl, bl, org, 6000, 3, 4, 2, 7, 18, w]);
                    sheets.extend(WIRINGS.map(of));
                }
            }
        }
    }
    sheets
}

/// The range of each count at a CL, on an accepted sheet.
pub fn count_ranges(cl: u32) -> [(u32, u32); 5] {
    let mut ranges = COUNT_RANGES;
    if cl == 4 {
        ranges[4].0 = LEAST_REFC_AT_CL_4;
    }
    ranges
}

/// A part at its least and greatest period with each count at either end of a range.
fn corners_of(part: &Sheet, ranges: [(u32, u32); 5]) -> Vec<Sheet> {
    let mut sheets = Vec::new();
    for period in [least_period(part.grade, part.cl).unwrap(), GREATEST_PERIOD] {
        for corner in 0..32 {
            let mut numbers = part.numbers();
            numbers[4] = period;
            for (i, (low, high)) in ranges.into_iter().enumerate() {
                numbers[5 + i] = if corner >> i & 1 == 0 { low } else { high };
            }
            sheets.push(Sheet::from_numbers(numbers));
        }
    }
    sheets
}

/// The corners of every part: accepted sheets.
pub fn corners() -> Vec<Sheet> {
    let corners = |part: Sheet| corners_of(&part, count_ranges(part.cl));
    parts().into_iter().flat_map(corners).collect()
}

/// The parts at CL 4 with the greatest REFC that 33 refuses.
pub fn short_parts() -> Vec<Sheet> {
    let at_4 = parts().into_iter().filter(|part| part.cl == 4);
    let refc = LEAST_REFC_AT_CL_4 - 1;
    at_4.map(|part| Sheet { refc, ..part }).collect()
}

/// The corners of these, with the least and the greatest REFC that 33 refuses.
pub fn short_corners() -> Vec<Sheet> {
    let mut ranges = COUNT_RANGES;
    ranges[4].1 = LEAST_REFC_AT_CL_4 - 1;
    let parts = short_parts().into_iter();
    parts.flat_map(|part| corners_of(&part, ranges)).collect()
}

/// An accepted sheet at random.
pub fn sheet(random: &Random) -> Sheet {
    let mut numbers = random.pick(&parts()).numbers();
    let least = least_period(numbers[0], numbers[1]).unwrap();
    numbers[4] = random.between(least, GREATEST_PERIOD);
    for (i, (low, high)) in count_ranges(numbers[1]).into_iter().enumerate() {
        numbers[5 + i] = random.between(low, high);
    }
    Sheet::from_numbers(numbers)
}

/// A request within the sheet's ranges, of the given kind, and of the given bank or, past the last of
/// the sheet's banks, counted on from the first.
pub fn request(random: &Random, sheet: &Sheet, write: bool, bank: u32) -> Request {
    let lanes: &[u32] = if sheet.bl == 4 { &[1, 2, 4] } else { &[1, 2] };
    let lane = |used: bool| if used { random.pick(lanes) } else { 0 };
    let (lower, upper) = (lane(write), lane(write && sheet.org == 16));
    Request {
        write,
        bank: bank % (greatest_bank(sheet) + 1),
        row: random.below(greatest_row(sheet) + 1),
        column: random.below(column_pins(sheet) + 1),
        lower,
        upper,
    }
}

/// An operation of the kind within the sheet's ranges.
pub fn operation(random: &Random, sheet: &Sheet, kind: Kind, bank: u32) -> Operation {
    match kind {
        Kind::Read => Operation::Access(request(random, sheet, false, bank)),
        Kind::Write => Operation::Access(request(random, sheet, true, bank)),
        Kind::Regular => Operation::Regular(random.once_in(2)),
        Kind::Extended => Operation::Extended(random.below(64)),
        Kind::Refresh => Operation::Refresh,
    }
}

/// The pins of both words that a pair of the kind ignores.
pub fn ignored(sheet: &Sheet, kind: Kind) -> (u32, u32) {
    let all = ROW | BANK | FN;
    let column = column_pins(sheet);
    let lanes = match (sheet.bl, sheet.org) {
        (2, 16) => BA2 | a(12),
        (2, _) => BA2,
        (_, 16) => BA2 | a(13) | a(12) | a(11),
        _ => BA2 | a(13),
    };
    match kind {
        Kind::Read => (0, all & !column),
        Kind::Write => (0, all & !column & !lanes),
        Kind::Regular | Kind::Extended => (ROW | BANK, FN),
        Kind::Refresh => (ROW | BANK, all),
    }
}

/// The words of an operation with its ignored pins at random.
pub fn noisy(random: &Random, sheet: &Sheet, kind: Kind, operation: &Operation) -> (u32, u32) {
    let (first, second) = pair::write(sheet, operation).expect("an operation within its ranges");
    let (of_first, of_second) = ignored(sheet, kind);
    (
        first | (random.bits() & of_first),
        second | (random.bits() & of_second),
    )
}
