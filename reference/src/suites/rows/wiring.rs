//! What the wiring changes and what it leaves, on sheet E with eight banks and with four.

use super::{of_started, row, Check, Row};
use crate::script::{Call, PairNumbers};
use crate::sheet::{Sheet, SHEET_E as EIGHT, SHEET_E_OF_FOUR as FOUR};
use crate::written::{RDA, READ, READ_OF_4};

const CHECKS: [Check; 7] = [
    // Reads whose first words differ in BA2 alone (RULES 4.7): two banks of eight; one of four, RC apart and
    // one clock less.
    (EIGHT, &[(201, &READ), (205, &READ_OF_4)], "accepted 207"),
    (FOUR, &[(201, &READ), (206, &READ_OF_4)], "accepted 208"),
    (FOUR, &[(201, &READ), (205, &READ_OF_4)], "breach 206 7"),
    // An MRS with BA2 high, regular and extended, with either (RULES 2.6).
    (EIGHT, &[(201, &[RDA, 0x90042])], "breach 202 4"),
    (FOUR, &[(201, &[RDA, 0x90042])], "breach 202 4"),
    (EIGHT, &[(201, &[RDA, 0x94000])], "breach 202 4"),
    (FOUR, &[(201, &[RDA, 0x94000])], "breach 202 4"),
];

/// Pairs that are written: the sheet, the numbers of the request, and the line. BFFFF is 786431, B0000
/// 720896, 80000 524288, C0000 786432 and D1000 856064.
const PAIRS: [(Sheet, [u32; 6], &str); 8] = [
    // The last bank and row of each, and one more (RULES 3.2).
    (EIGHT, [0, 7, 16_383, 0, 0, 0], "words 786431 786432"),
    (EIGHT, [0, 8, 0, 0, 0, 0], "refused 26"),
    (EIGHT, [0, 0, 16_384, 0, 0, 0], "refused 26"),
    (FOUR, [0, 3, 32_767, 0, 0, 0], "words 786431 786432"),
    (FOUR, [0, 4, 0, 0, 0, 0], "refused 26"),
    (FOUR, [0, 0, 32_768, 0, 0, 0], "refused 26"),
    // Bit 14 of a row is BA2 (RULES 2.3).
    (FOUR, [0, 0, 16_384, 0, 0, 0], "words 720896 786432"),
    // The lower lane stays on BA2 and A13 (RULES 2.5).
    (FOUR, [1, 0, 0, 0, 4, 4], "words 524288 856064"),
];

/// Refusal 34 (RULES 6.34), behind 20 and ahead of 21: grade, period, wiring, and the line.
const SHEETS: [(u32, u32, u32, &str); 6] = [
    (37, 5000, 8, "config 0"),
    (37, 5000, 4, "config 0"),
    (37, 5000, 5, "config 34"),
    (38, 4499, 5, "config 20"),
    (37, 4499, 5, "config 34"),
    (37, 4499, 4, "config 21"),
];

/// The rows.
pub fn rows() -> Vec<Row> {
    let pair = |(sheet, request, line)| {
        let numbers = PairNumbers::Access(request);
        row(sheet, Call::WritePair(numbers), line)
    };
    let sheet = |(grade, period, wiring, line)| Row {
        sheet: Sheet {
            grade,
            period,
            wiring,
            ..EIGHT
        },
        call: None,
        line,
    };
    let checks = CHECKS.into_iter().map(of_started);
    let pairs = PAIRS.into_iter().map(pair);
    checks
        .chain(pairs)
        .chain(SHEETS.into_iter().map(sheet))
        .collect()
}
