//! The edges of rule 3 (RULES 4.3), for one REF word and for more than eight.

use super::{row, Row};
use crate::script::Call;
use crate::sheet::SHEET_E;
use crate::word::DESL;
use crate::written::{started, trace, At, REFRESH, UP_TO_NINE};

/// The rows.
pub fn rows() -> Vec<Row> {
    let up_to = |last| -> At { (last, &[DESL]) };
    let one = |last| trace(&[(14, &REFRESH), up_to(last)]);
    let nine = |last| started(&[&UP_TO_NINE[..], &[up_to(last)]].concat());
    let ten = |last| started(&[&UP_TO_NINE[..], &[(673, &REFRESH), up_to(last)]].concat());
    let rows = [
        // One REF word, at 15: up to D after it, and one clock more.
        (one(795), "accepted 796"),
        (one(796), "breach 796 3"),
        // Nine and ten: up to 8 × D after the eighth last, at 33 and at 51, and one clock more.
        (nine(6273), "accepted 6274"),
        (nine(6274), "breach 6274 3"),
        (ten(6291), "accepted 6292"),
        (ten(6292), "breach 6292 3"),
    ];
    let check = |(words, line)| row(SHEET_E, Call::Check(words), line);
    rows.into_iter().map(check).collect()
}
