//! The data clocks behind a pair that is read (RULES 3.6), and their sum in the tally (RULES 9.1), whose sheet
//! is tested first.

use super::{counts, of_part, row, Row, BY_8};
use crate::script::Call;
use crate::sheet::{Sheet, SHEET_E as E, SHEET_E_OF_FOUR as FOUR};
use crate::suites::sheets::{all_spoiled, SPOILED};
use crate::word::DESL;
use crate::written::{EXTENDED, LOW, RDA, READ, READ_OF_4, REFRESH, REGULAR, WRA, WRITE};

/// Reads and writes at 6000 ps: CL, BL, the pair, and the line. The write has four words in each lane at BL 4
/// and one at BL 2.
const AT_EACH_PART: [(u32, u32, [u32; 2], &str); 12] = [
    (3, 2, READ, "access 0 0 0 0 0 0 3 1"),
    (3, 2, WRITE, "access 1 0 0 0 1 1 2 1"),
    (3, 4, READ, "access 0 0 0 0 0 0 3 2"),
    (3, 4, WRITE, "access 1 0 0 0 4 4 2 2"),
    (4, 2, READ, "access 0 0 0 0 0 0 4 1"),
    (4, 2, WRITE, "access 1 0 0 0 1 1 3 1"),
    (4, 4, READ, "access 0 0 0 0 0 0 4 2"),
    (4, 4, WRITE, "access 1 0 0 0 4 4 3 2"),
    (5, 2, READ, "access 0 0 0 0 0 0 5 1"),
    (5, 2, WRITE, "access 1 0 0 0 1 1 4 1"),
    (5, 4, READ, "access 0 0 0 0 0 0 5 2"),
    (5, 4, WRITE, "access 1 0 0 0 4 4 4 2"),
];

/// Further pairs that are read: the sheet, both words, and the line.
const PAIRS: [(Sheet, [u32; 2], &str); 22] = [
    // Fewer words in both lanes, in either one, and by 8 in the lower: the data are as long.
    (E, [WRA, 0xC2800], "access 1 0 0 0 2 2 3 2"),
    (E, [WRA, 0xD3800], "access 1 0 0 0 1 1 3 2"),
    (E, [WRA, 0xD1800], "access 1 0 0 0 4 1 3 2"),
    (E, [WRA, 0xD3000], "access 1 0 0 0 1 4 3 2"),
    (BY_8, [WRA, 0xD0000], "access 1 0 0 0 4 0 3 2"),
    (BY_8, [WRA, 0xD2000], "access 1 0 0 0 1 0 3 2"),
    // At BL 2 two words in each lane, and one in either.
    (of_part(4, 2), [WRA, 0xC0000], "access 1 0 0 0 2 2 3 1"),
    (of_part(4, 2), [WRA, 0xC1000], "access 1 0 0 0 2 1 3 1"),
    (of_part(4, 2), [WRA, 0xD0000], "access 1 0 0 0 1 2 3 1"),
    // The wiring changes the bank and the row alone.
    (E, READ_OF_4, "access 0 4 0 0 0 0 4 2"),
    (FOUR, READ_OF_4, "access 0 0 16384 0 0 0 4 2"),
    // Modes and refreshes have no data, whatever their free bits and the sheet are.
    (E, REGULAR, "regular 0 0 0"),
    (E, [RDA, 0x8004A], "regular 1 0 0"),
    (of_part(5, 2), [RDA, 0x80051], "regular 0 0 0"),
    (E, EXTENDED, "extended 0 0 0"),
    (E, [RDA, 0x8407E], "extended 63 0 0"),
    (E, REFRESH, "refresh 0 0"),
    (of_part(5, 2), REFRESH, "refresh 0 0"),
    // Behind a refusal no clocks are written: a reserved lane, PD low, a wrong mode, and the sheet's own.
    (E, [WRA, 0xC0000], "refused 28"),
    (E, [RDA, LOW], "refused 28"),
    (of_part(4, 2), REGULAR, "refused 28"),
    (counts(2, 3, 1, 7, 17), READ, "refused 33"),
];

/// A read, a write, both modes, the regular one for BL 4, and a refresh, with DESL and a low word between them;
/// the last word opens a pair.
#[rustfmt::skip]
const OF_EACH: [u32; 13] = [
    RDA, DESL, WRA, 0xD1000, DESL, RDA, 0x80042, RDA, 0x84000, LOW, WRA, 0x80000, RDA,
];

/// Tallies: the sheet, the words, and the line.
#[rustfmt::skip]
const TALLIES: [(Sheet, &[u32], &str); 24] = [
    // No words; some of each kind at BL 4 and at BL 2, with either wiring, where a last pair stays open.
    (E, &[], "counts 0 0 0 0 0 0"),
    (E, &OF_EACH, "counts 1 1 2 1 2 4"),
    (FOUR, &OF_EACH, "counts 1 1 2 1 2 4"),
    (of_part(4, 2), &OF_EACH, "counts 1 1 2 1 2 2"),
    // One read or write at each BL; its CL adds nothing.
    (E, &READ, "counts 1 0 0 0 0 2"),
    (E, &WRITE, "counts 0 1 0 0 0 2"),
    (of_part(5, 2), &READ, "counts 1 0 0 0 0 1"),
    (of_part(5, 2), &WRITE, "counts 0 1 0 0 0 1"),
    (E, &[WRA, 0xD3800], "counts 0 1 0 0 0 2"),
    // Without reads and writes.
    (E, &[WRA, 0x80000, RDA, 0x80042, DESL], "counts 0 0 1 1 1 0"),
    // A pair that stays open counts nothing, alone and behind another.
    (E, &[RDA], "counts 0 0 0 0 0 0"),
    (E, &[WRA], "counts 0 0 0 0 0 0"),
    (E, &[RDA, DESL, WRA], "counts 1 0 0 0 0 2"),
    // A low word closes a pair: with CS high a read and a write, with CS low a mode and a refresh.
    (E, &[RDA, LOW, WRA, LOW], "counts 1 1 0 0 0 4"),
    (E, &[RDA, 0, WRA, 0], "counts 0 0 1 1 0 0"),
    // Where no pair is open, a low word opens none.
    (E, &[0, LOW, 0x20000, DESL], "counts 0 0 0 0 4 0"),
    // Pairs that cannot be read are counted all the same: a stray bit in either word, a reserved lane, a wrong
    // mode of either sort.
    (E, &[0x1A0000, DESL], "counts 1 0 0 0 0 2"),
    (E, &[RDA, 0x8000_0000 | DESL], "counts 1 0 0 0 0 2"),
    (E, &[WRA, 0xC0000], "counts 0 1 0 0 0 2"),
    (E, &[RDA, 0x80041, RDA, 0x84001], "counts 0 0 2 0 0 0"),
    // The same words at BL 2, where no lane is reserved and the regular mode is right.
    (of_part(4, 2), &[0x1A0000, DESL], "counts 1 0 0 0 0 1"),
    (of_part(4, 2), &[RDA, 0x8000_0000 | DESL], "counts 1 0 0 0 0 1"),
    (of_part(4, 2), &[WRA, 0xC0000], "counts 0 1 0 0 0 1"),
    (of_part(4, 2), &[RDA, 0x80041, RDA, 0x84001], "counts 0 0 2 0 0 0"),
];

/// Tallies on sheet E with a fault and all those that are tried later: the line, and that with all counts
/// beside the number.
const REFUSED: [[&str; 2]; SPOILED.len()] = [
    ["refused 20", "counts 20 0 0 0 0 0 0"],
    ["refused 34", "counts 34 0 0 0 0 0 0"],
    ["refused 21", "counts 21 0 0 0 0 0 0"],
    ["refused 22", "counts 22 0 0 0 0 0 0"],
    ["refused 33", "counts 33 0 0 0 0 0 0"],
];

/// The rows.
pub fn rows() -> Vec<Row> {
    let read = |(sheet, [first, second], line): (_, [u32; 2], _)| {
        row(sheet, Call::ReadPair(first, second), line)
    };
    let at_part = |(cl, bl, pair, line)| {
        let part = of_part(cl, bl).with(4, 6000);
        read((part, pair, line))
    };
    let tally =
        |(sheet, words, line): (_, &[u32], _)| row(sheet, Call::Count(words.to_vec()), line);
    let refused = |(sheet, [line, with_counts]): (_, [_; 2])| {
        let anyway = Call::CountAnyway(READ.to_vec());
        [tally((sheet, &READ, line)), row(sheet, anyway, with_counts)]
    };
    let pairs = AT_EACH_PART.into_iter().map(at_part).chain(PAIRS.map(read));
    let tallies = TALLIES.into_iter().map(tally);
    let refusals = all_spoiled().into_iter().zip(REFUSED);
    let refusals = refusals.flat_map(refused);
    pairs.chain(tallies).chain(refusals).collect()
}
