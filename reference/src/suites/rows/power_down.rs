//! Power down: both edges of each ground of rule 2, the two wake-up words, and what holds in between.

use super::{of_bare, of_started, row, Check, Row};
use crate::script::Call;
use crate::sheet::{Sheet, SHEET_E as E};
use crate::word::DESL;
use crate::written::{trace, EXTENDED, LOW, RDA, READ, REFRESH, REGULAR, WRITE, WRITE_OF_1};

#[rustfmt::skip]
const STARTED: [Check; 12] = [
    // Rule 2 (RULES 4.2) behind a read at 201, whose LAL is at 202: CL + BL / 2 after that.
    (E, &[(201, &READ), (208, &[LOW])], "accepted 209"),
    (E, &[(201, &READ), (207, &[LOW])], "breach 207 2"),
    // A write: WL + 2 after its LAL.
    (E, &[(201, &WRITE), (207, &[LOW])], "accepted 208"),
    (E, &[(201, &WRITE), (206, &[LOW])], "breach 206 2"),
    // A read and a write behind it, which is the one that binds.
    (E, &[(201, &READ), (205, &WRITE_OF_1), (211, &[LOW])], "accepted 212"),
    (E, &[(201, &READ), (205, &WRITE_OF_1), (210, &[LOW])], "breach 210 2"),
    // A mode and a refresh: RSC and REFC after 201.
    (E, &[(201, &REGULAR), (208, &[LOW])], "accepted 209"),
    (E, &[(201, &REGULAR), (207, &[LOW])], "breach 207 2"),
    (E, &[(201, &REFRESH), (219, &[LOW])], "accepted 220"),
    (E, &[(201, &REFRESH), (218, &[LOW])], "breach 218 2"),
    // Behind two wake-up words a pair may open (RULES 4.13).
    (E, &[(201, &READ), (208, &[LOW, DESL, DESL, RDA, DESL])], "accepted 213"),
    (E, &[(201, &READ), (208, &[LOW, 0, DESL, RDA, DESL])], "breach 211 13"),
];

/// The same ground at BL 2 and 5500 ps: CL, its MRS, the pair at 201, PD low, and the line.
const AT_BL_2: [(u32, u32, [u32; 2], usize, &str); 4] = [
    // A read at CL 3: RC after 201 is the same clock.
    (3, 0x80031, READ, 206, "accepted 207"),
    (3, 0x80031, READ, 205, "breach 205 2"),
    // A write: WL + 2, where BL / 2 is another number.
    (4, 0x80041, WRITE, 207, "accepted 208"),
    (4, 0x80041, WRITE, 206, "breach 206 2"),
];

#[rustfmt::skip]
const BARE: [Check; 16] = [
    // At clock 0, with CS high and low; with a pair open.
    (E, &[(0, &[LOW])], "accepted 1"),
    (E, &[(0, &[0])], "breach 0 2"),
    (E, &[(0, &[RDA, LOW])], "breach 1 2"),
    // Rule 1 comes before it, and rule 3 behind it: the REF word at 15, one clock past D.
    (E, &[(0, &[0x100000])], "breach 0 1"),
    (E, &[(14, &REFRESH), (796, &[0])], "breach 796 2"),
    // While PD stays low the other pins are ignored, but no bit above it.
    (E, &[(0, &[LOW, 0, 0x7FFFF])], "accepted 3"),
    (E, &[(0, &[LOW, 0x140000])], "breach 1 1"),
    // Rule 13 (RULES 4.13): CS low in the first and in the second wake-up word.
    (E, &[(0, &[LOW, RDA])], "breach 1 13"),
    (E, &[(0, &[LOW, DESL, RDA])], "breach 2 13"),
    // Nothing is due at the end of a trace, a wake-up word neither (RULES 5.2).
    (E, &[(0, &[LOW, DESL])], "accepted 2"),
    // Low again at the second wake-up word, and at the first clock after the two.
    (E, &[(0, &[LOW, DESL, LOW])], "breach 2 2"),
    (E, &[(0, &[LOW, DESL, DESL, LOW])], "accepted 4"),
    // Breach 3 asleep: the REF word at 15, D later and one clock more; it comes before 13.
    (E, &[(14, &REFRESH), (32, &[LOW; 764])], "accepted 796"),
    (E, &[(14, &REFRESH), (32, &[LOW; 765])], "breach 796 3"),
    (E, &[(14, &REFRESH), (32, &[LOW; 763]), (795, &[RDA])], "breach 795 13"),
    (E, &[(14, &REFRESH), (32, &[LOW; 764]), (796, &[RDA])], "breach 796 3"),
];

/// The tally (RULES 9.1): low words are DESL and open nothing; one closes a pair, and a wake-up word may
/// open one.
const TALLY: [(&[u32], &str); 3] = [
    (&[LOW, 0], "counts 0 0 0 0 2 0"),
    (&[RDA, LOW], "counts 1 0 0 0 0 2"),
    (&[LOW, RDA, DESL], "counts 1 0 0 0 1 2"),
];

/// The rows.
pub fn rows() -> Vec<Row> {
    let at_bl_2 = |(cl, mrs, pair, low, line): (_, _, [u32; 2], _, _)| {
        let (bl, period) = (2, 5500);
        let sheet = Sheet {
            cl,
            bl,
            period,
            ..E
        };
        let words = trace(&[
            (0, &EXTENDED),
            (7, &[RDA, mrs]),
            (14, &REFRESH),
            (32, &REFRESH),
            (201, &pair),
            (low, &[LOW]),
        ]);
        row(sheet, Call::Check(words), line)
    };
    let tally = |(words, line): (&[u32], _)| row(E, Call::Count(words.to_vec()), line);
    let started = STARTED.into_iter().map(of_started);
    let checks = started.chain(AT_BL_2.into_iter().map(at_bl_2));
    let checks = checks.chain(BARE.into_iter().map(of_bare));
    checks.chain(TALLY.into_iter().map(tally)).collect()
}
