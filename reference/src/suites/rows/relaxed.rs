//! Relaxed sheets (RULES 5.6): for each of the five counts traces that the sheet with the smaller one accepts
//! and the other does not; and what two sheets must agree in, since where that alone differs a trace may be
//! accepted on one and in breach on the other. For the wiring the first rows of `wiring` show it.

use super::{counts, of_bare, of_part, of_period, of_started, Check, Row, BY_8};
use crate::sheet::SHEET_E as E;
use crate::word::DESL;
use crate::written::{LOW, READ, READ_OF_1, REFRESH, REGULAR, UP_TO_NINE, WRA, WRITE, WRITE_OF_1};

/// Each two rows are on one trace, behind the start-up.
#[rustfmt::skip]
const STARTED: [Check; 20] = [
    // RBD 3 and 2, RWD 3 and 2, WRD 2 and 1 (RULES 4.8).
    (counts(3, 3, 1, 7, 18), &[(201, &READ), (203, &READ_OF_1)], "breach 204 8"),
    (E, &[(201, &READ), (203, &READ_OF_1)], "accepted 205"),
    (E, &[(201, &READ), (204, &WRITE_OF_1)], "breach 205 8"),
    (counts(2, 2, 1, 7, 18), &[(201, &READ), (204, &WRITE_OF_1)], "accepted 206"),
    (counts(2, 3, 2, 7, 18), &[(201, &WRITE), (203, &READ_OF_1)], "breach 204 8"),
    (E, &[(201, &WRITE), (203, &READ_OF_1)], "accepted 205"),
    // RSC 7 and 6 (RULES 4.9, 4.2).
    (E, &[(201, &REGULAR), (207, &READ)], "breach 208 9"),
    (counts(2, 3, 1, 6, 18), &[(201, &REGULAR), (207, &READ)], "accepted 209"),
    (E, &[(201, &REGULAR), (207, &[LOW])], "breach 207 2"),
    (counts(2, 3, 1, 6, 18), &[(201, &REGULAR), (207, &[LOW])], "accepted 208"),
    // REFC 19 and 18 (RULES 4.10).
    (counts(2, 3, 1, 7, 19), &[], "breach 33 10"),
    (E, &[], "accepted 34"),
    // Another CL or BL: the MRS of the start-up is wrong (RULES 4.4).
    (of_part(5, 4), &[], "breach 8 4"),
    (E, &[], "accepted 34"),
    (of_part(4, 2), &[], "breach 8 4"),
    (E, &[], "accepted 34"),
    // Another organisation: the upper lane is looked at (RULES 4.5).
    (E, &[(201, &[WRA, 0xD0000])], "breach 202 5"),
    (BY_8, &[(201, &[WRA, 0xD0000])], "accepted 203"),
    // A shorter period has a larger W (RULES 4.12).
    (of_period(4992), &UP_TO_NINE, "breach 656 12"),
    (E, &UP_TO_NINE, "accepted 657"),
];

/// Two sheets on traces with no start-up.
#[rustfmt::skip]
const BARE: [Check; 4] = [
    // REFC 19 and 18 (RULES 4.2).
    (counts(2, 3, 1, 7, 19), &[(14, &REFRESH), (32, &[LOW])], "breach 32 2"),
    (E, &[(14, &REFRESH), (32, &[LOW])], "accepted 33"),
    // A longer period has a smaller D (RULES 4.3).
    (of_period(5001), &[(14, &REFRESH), (795, &[DESL])], "breach 795 3"),
    (E, &[(14, &REFRESH), (795, &[DESL])], "accepted 796"),
];

/// The rows.
pub fn rows() -> Vec<Row> {
    let started = STARTED.into_iter().map(of_started);
    started.chain(BARE.into_iter().map(of_bare)).collect()
}
