//! Banks and rows on either side of where their ranges end, with either wiring.

use super::pool;
use crate::coverage::Coverage;
use crate::pair::Request;
use crate::random::Random;
use crate::script::Call;
use crate::sheet::Sheet;
use crate::wiring::{self, WIRINGS};

/// A field's place among a request's numbers and its value, and whether that is in range with eight
/// banks and with four.
const ENDS: [(usize, u32, [bool; 2]); 8] = [
    (1, 3, [true, true]),
    (1, 4, [true, false]),
    (1, 7, [true, false]),
    (1, 8, [false, false]),
    (2, 16_383, [true, true]),
    (2, 16_384, [false, true]),
    (2, 32_767, [false, true]),
    (2, 32_768, [false, false]),
];

/// The name of a call of a code on a request with such a field.
fn name(code: u32, field: usize, value: u32, fits: bool, wiring: u32) -> String {
    let (field, banks) = (Request::FIELDS[field - 1], wiring::name(wiring));
    let answer = if fits { "in range" } else { "26" };
    format!("{code}: {field} {value} {answer}, {banks}")
}

/// What calls of a code must meet.
pub fn promised(code: u32) -> Vec<String> {
    let mut promised = Vec::new();
    for (field, value, fits) in ENDS {
        for (wiring, fits) in WIRINGS.into_iter().zip(fits) {
            promised.push(name(code, field, value, fits, wiring));
        }
    }
    promised
}

/// Calls with each of these values in a request that fits the sheet otherwise.
pub fn calls(
    random: &Random,
    coverage: &mut Coverage,
    sheet: &Sheet,
    made: impl Fn([u32; 6]) -> Call,
) -> Vec<Call> {
    let mut calls = Vec::new();
    for (field, value, _) in ENDS {
        let write = random.once_in(2);
        let mut numbers = pool::request(random, sheet, write, random.below(8)).numbers();
        numbers[field] = value;
        let fits = Request::from_numbers(numbers).fits(sheet);
        let call = made(numbers);
        coverage.meet(&name(call.code(), field, value, fits, sheet.wiring));
        calls.push(call);
    }
    calls
}
