//! Data clocks behind pairs that are read, and their sum in the tally. Figures are worked out by hand from
//! the paper.

use reference::both::Both;
use reference::counts::{counts, numbers};
use reference::judge::{breach, judge, Verdict};
use reference::pair::{self, Operation, Request};
use reference::sheet::{Sheet, SHEET_E, SHEET_E_OF_FOUR};
use reference::suites::sheets::{all_spoiled, SPOILED};
use reference::wiring::WIRINGS;
use reference::word::DESL;
use reference::written::{trace, At, EXTENDED, LOW, RDA, READ, REFRESH, REGULAR, WRA, WRITE};

/// CL and BL, then latency and length of a read and of a write.
const PARTS: [(u32, u32, [u32; 2], [u32; 2]); 6] = [
    (3, 2, [3, 1], [2, 1]),
    (3, 4, [3, 2], [2, 2]),
    (4, 2, [4, 1], [3, 1]),
    (4, 4, [4, 2], [3, 2]),
    (5, 2, [5, 1], [4, 1]),
    (5, 4, [5, 2], [4, 2]),
];

/// Sheet E with another CL and BL, at a period that every CL allows.
fn of_part(cl: u32, bl: u32) -> Sheet {
    let period = 6000;
    Sheet {
        cl,
        bl,
        period,
        ..SHEET_E
    }
}

/// Latency and length of a pair that is read.
fn data([first, second]: [u32; 2], sheet: Sheet) -> Result<[u32; 2], u32> {
    let reading = pair::read(&sheet, first, second);
    reading.map(|r| [r.data.latency, r.data.length])
}

/// The words of an operation.
fn words(sheet: &Sheet, operation: Operation) -> [u32; 2] {
    pair::write(sheet, &operation).unwrap().into()
}

/// The words of a write of row 0 and column 0 by its lanes.
fn write(sheet: &Sheet, lower: u32, upper: u32) -> [u32; 2] {
    let request = Request::from_numbers([1, 0, 0, 0, lower, upper]);
    words(sheet, Operation::Access(request))
}

#[test]
fn reads_and_writes_of_every_part() {
    for (cl, bl, of_read, of_write) in PARTS {
        for grade in [37, 50] {
            for wiring in WIRINGS {
                let sheet = Sheet {
                    grade,
                    wiring,
                    ..of_part(cl, bl)
                };
                assert_eq!(data(READ, sheet), Ok(of_read), "CL {cl}, BL {bl}");
                assert_eq!(data(WRITE, sheet), Ok(of_write), "CL {cl}, BL {bl}");
                let by_8 = Sheet { org: 8, ..sheet };
                assert_eq!(data(READ, by_8), Ok(of_read), "CL {cl}, BL {bl}");
                assert_eq!(data(WRITE, by_8), Ok(of_write), "CL {cl}, BL {bl}");
            }
        }
    }
}

/// The other numbers of a sheet, and the pins of a pair, leave the data as they are.
#[test]
fn nothing_else_counts() {
    let slow = Sheet::from_numbers([50, 4, 4, 16, 8500, 7, 7, 7, 15, 63, 4]);
    for sheet in [SHEET_E, SHEET_E_OF_FOUR, slow] {
        assert_eq!(data([0xBFFFF, 0xFFFFF], sheet), Ok([4, 2]));
        assert_eq!(data([0x9FFFF, 0xFFFFF], sheet), Ok([3, 2]));
    }
}

#[test]
fn lanes_that_write_fewer_words() {
    for (cl, bl, _, due) in PARTS {
        let sheet = of_part(cl, bl);
        let by_8 = Sheet { org: 8, ..sheet };
        let lanes: &[u32] = if bl == 4 { &[1, 2, 4] } else { &[1, 2] };
        for &lower in lanes {
            assert_eq!(data(write(&by_8, lower, 0), by_8), Ok(due));
            for &upper in lanes {
                assert_eq!(data(write(&sheet, lower, upper), sheet), Ok(due));
            }
        }
    }
}

#[test]
fn modes_and_refreshes_have_none() {
    for (cl, bl, ..) in PARTS {
        let sheet = of_part(cl, bl);
        let modes = [false, true].map(Operation::Regular);
        let extended = [0, 1, 63].map(Operation::Extended);
        let others = [&modes[..], &extended, &[Operation::Refresh]].concat();
        for operation in others {
            let pair = words(&sheet, operation);
            assert_eq!(data(pair, sheet), Ok([0, 0]), "{operation:?}");
        }
    }
}

#[test]
fn refused_pairs() {
    let wrong_mode = [RDA, 0x80041];
    for pair in [[DESL, DESL], [RDA, LOW], [WRA, DESL], wrong_mode] {
        assert_eq!(data(pair, SHEET_E), Err(28));
        for ((place, value, number), all) in SPOILED.into_iter().zip(all_spoiled()) {
            assert_eq!(data(pair, SHEET_E.with(place, value)), Err(number));
            assert_eq!(data(READ, all), Err(number));
        }
    }
}

/// Rule 11: a mode comes no earlier than RC after a read or write, and not before its data are over.
#[test]
fn modes_wait_for_the_data() {
    for (cl, bl, ..) in PARTS {
        let sheet = of_part(cl, bl);
        let regular = words(&sheet, Operation::Regular(false));
        for access in [READ, WRITE] {
            let [latency, length] = data(access, sheet).unwrap();
            let least = sheet.rc().max(1 + latency + length);
            let mode = |clock: u32| {
                let start_up: [At; 3] = [(0, &EXTENDED), (7, &regular), (14, &REFRESH)];
                let mode: At = (clock as usize, &regular);
                let then: [At; 3] = [(32, &REFRESH), (201, &access), mode];
                judge::<Both>(&sheet, &trace(&[start_up, then].concat()))
            };
            assert_eq!(mode(201 + least), Verdict::Accepted, "CL {cl}, BL {bl}");
            assert_eq!(mode(200 + least), breach(201 + least, 11));
        }
    }
}

/// Two reads, three writes, a mode, a refresh and two DESL words, and a pair that stays open.
#[test]
fn tallies_of_every_part() {
    let few = [WRA, 0xD3800];
    let pairs = [READ, WRITE, few, READ, WRITE, REGULAR, REFRESH].concat();
    let all = [&pairs[..], &[LOW, DESL, WRA]].concat();
    for (cl, bl, [_, length], _) in PARTS {
        let of = |sheet| counts(&sheet, &all).unwrap().numbers();
        let due = [2, 3, 1, 1, 2, 5 * length];
        assert_eq!(of(of_part(cl, bl)), due);
        assert_eq!(of(of_part(cl, bl).with(10, 4)), due);
        assert_eq!(of(of_part(cl, bl).with(3, 8)), due);
    }
}

/// The most data there are: 32,768 pairs at BL 4. One word more is refused, and so is a refused sheet, first.
#[test]
fn the_longest_tallies() {
    let words = [RDA, DESL, WRA, 0xC0000].repeat(16_385);
    let of = |sheet: &Sheet, length| numbers(counts(sheet, &words[..length]));
    let at_bl_2 = SHEET_E.with(2, 2);
    assert_eq!(of(&SHEET_E, 65_536), (0, [16_384, 16_384, 0, 0, 0, 65_536]));
    assert_eq!(of(&at_bl_2, 65_536), (0, [16_384, 16_384, 0, 0, 0, 32_768]));
    assert_eq!(of(&SHEET_E, 65_535), (0, [16_384, 16_383, 0, 0, 0, 65_534]));
    assert_eq!(of(&at_bl_2, 65_535), (0, [16_384, 16_383, 0, 0, 0, 32_767]));
    assert_eq!(of(&SHEET_E, 65_537), (30, [0; 6]));
    for ((place, value, number), all) in SPOILED.into_iter().zip(all_spoiled()) {
        for length in [0, 1, 2, 65_536, 65_537] {
            let refused = (number, [0; 6]);
            assert_eq!(of(&SHEET_E.with(place, value), length), refused);
            assert_eq!(of(&all, length), refused);
        }
    }
}
