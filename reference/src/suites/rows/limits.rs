//! Sheets known within limits (RULES 5.7): limits with room in no number, in five, and in one alone, and what
//! is found there; and the refusals in their order. In each breach a single sheet in the limits has it.

use super::{counts, of_part, of_period, row, Row, BY_8};
use crate::script::Call;
use crate::sheet::{Sheet, SHEET_E as E, SHEET_E_OF_FOUR};
use crate::word::DESL;
use crate::written::{
    started, trace, At, READ, READ_OF_1, REFRESH, REGULAR, UP_TO_NINE, WRITE, WRITE_OF_1,
};

/// The least sheet, the greatest, the words at their clocks, and the line.
type Within = (Sheet, Sheet, &'static [At<'static>], &'static str);

/// Room for all but REFC, which the start-up uses up.
const LEAST: Sheet = Sheet {
    period: 4500,
    ..counts(2, 1, 1, 2, 18)
};
const GREATEST: Sheet = Sheet {
    period: 8500,
    ..counts(7, 7, 7, 7, 18)
};

/// Behind the start-up.
#[rustfmt::skip]
const STARTED: [Within; 15] = [
    // One sheet alone, and room: the start-up is accepted.
    (E, E, &[], "always"),
    (LEAST, GREATEST, &[], "always"),
    // With the shortest period alone the ninth REF word is within W (RULES 4.12).
    (of_period(4992), E, &UP_TO_NINE, "breach 656 12 on 37 4 4 16 4992 2 3 1 7 18 8"),
    // One count from one number to the next: with the larger alone a pair comes too soon (RULES 4.8 to 4.10).
    (E, counts(3, 3, 1, 7, 18), &[(201, &READ), (203, &READ_OF_1)], "breach 204 8 on 37 4 4 16 5000 3 3 1 7 18 8"),
    (E, counts(2, 4, 1, 7, 18), &[(201, &READ), (205, &WRITE_OF_1)], "breach 206 8 on 37 4 4 16 5000 2 4 1 7 18 8"),
    (E, counts(2, 3, 2, 7, 18), &[(201, &WRITE), (203, &READ_OF_1)], "breach 204 8 on 37 4 4 16 5000 2 3 2 7 18 8"),
    (counts(2, 3, 1, 6, 18), E, &[(201, &REGULAR), (207, &READ)], "breach 208 9 on 37 4 4 16 5000 2 3 1 7 18 8"),
    (E, counts(2, 3, 1, 7, 19), &[], "breach 33 10 on 37 4 4 16 5000 2 3 1 7 19 8"),
    // The second sheet's refusal, and 35 where the sheets differ elsewhere or are not in order.
    (E, counts(1, 3, 1, 7, 18), &[], "refused 22"),
    (E, of_part(5, 4), &[], "refused 35"),
    (E, of_part(4, 2), &[], "refused 35"),
    (E, BY_8, &[], "refused 35"),
    (E, SHEET_E_OF_FOUR, &[], "refused 35"),
    (E, of_period(4999), &[], "refused 35"),
    (E, counts(7, 2, 7, 15, 63), &[], "refused 35"),
];

/// With no start-up.
#[rustfmt::skip]
const BARE: [Within; 3] = [
    // With the longest period alone the next REF word is due (RULES 4.3).
    (E, of_period(5001), &[(14, &REFRESH), (795, &[DESL])], "breach 795 3 on 37 4 4 16 5001 2 3 1 7 18 8"),
    // The first sheet's refusal comes before the second's; the grades differ.
    (of_period(4000), counts(1, 3, 1, 7, 18), &[], "refused 21"),
    (of_period(5500), Sheet { grade: 50, ..of_period(5500) }, &[], "refused 35"),
];

/// The rows.
pub fn rows() -> Vec<Row> {
    let within = |(least, greatest, _, line): Within, words| {
        let call = Call::CheckWithin(greatest.numbers(), words);
        row(least, call, line)
    };
    let started = STARTED.map(|limits| within(limits, started(limits.2)));
    let bare = BARE.map(|limits| within(limits, trace(limits.2)));
    started.into_iter().chain(bare).collect()
}
