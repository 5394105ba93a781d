//! Lengths in time (RULES 1.7): from no word to the most, with and without picoseconds left over; and the
//! refusals in their order.

use super::{counts, of_period, row, Row};
use crate::script::Call;
use crate::sheet::{Sheet, SHEET_E as E};

/// The shortest period there is.
const SHORTEST: Sheet = Sheet {
    cl: 5,
    ..of_period(3750)
};

/// The sheet, the count of words, and the line.
const LENGTHS: [(Sheet, u32, &str); 14] = [
    // On sheet E, 5000 ps: no word, one, and the most.
    (E, 0, "time 0 0"),
    (E, 1, "time 5 0"),
    (E, 16_777_216, "time 83886080 0"),
    // One picosecond less or more a word: 999 of them are left over, or one.
    (of_period(4999), 1, "time 4 999"),
    (of_period(5001), 1, "time 5 1"),
    // The shortest period: three words and four.
    (SHORTEST, 3, "time 11 250"),
    (SHORTEST, 4, "time 15 0"),
    // The longest times, past 32 bits in picoseconds.
    (of_period(8500), 16_777_216, "time 142606336 0"),
    (of_period(8499), 16_777_216, "time 142589558 784"),
    // One word more is refused by 32.
    (E, 16_777_217, "refused 32"),
    // The sheet's own numbers come first, larger ones too.
    (of_period(4499), 0, "refused 21"),
    (of_period(4499), 16_777_217, "refused 21"),
    (counts(2, 3, 1, 7, 17), 16_777_217, "refused 33"),
    (Sheet { wiring: 5, ..E }, 16_777_217, "refused 34"),
];

/// A count on sheet E that 32 bits would take for one word, and its refusal. No script has room for it:
/// `bulk_compare` asks for it, and the tests do.
pub const PAST_32_BITS: (u64, u32) = (4_294_967_297, 32);

/// The rows.
pub fn rows() -> Vec<Row> {
    let length = |(sheet, count, line)| row(sheet, Call::Time(count), line);
    LENGTHS.into_iter().map(length).collect()
}
