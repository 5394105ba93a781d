//! The two wirings: what BA2 carries with each, the ranges, rule 7 and refusal 34.

use reference::both::Both;
use reference::controller::Controller;
use reference::coverage::Coverage;
use reference::expected::expected;
use reference::history::History;
use reference::judge::{breach, judge, Verdict};
use reference::pair::{self, Operation, Request};
use reference::random::Random;
use reference::sheet::{Sheet, SHEET_E};
use reference::suites::{near, pool};
use reference::summary::Summary;
use reference::wiring::WIRINGS;
use reference::word::DESL;
use reference::written::{started, At, RDA, READ, READ_OF_1, READ_OF_4};

/// A write with BA2 high in its first word, of four words in each lane.
const WRITE_OF_4: [u32; 2] = [0x90000, 0xD1000];

/// Sheet E with a wiring.
fn wired(wiring: u32) -> Sheet {
    Sheet { wiring, ..SHEET_E }
}

/// The verdict with eight banks and with four on words at their clocks after the start-up.
fn verdicts(words: &[At]) -> [Verdict; 2] {
    let words = started(words);
    WIRINGS.map(|wiring| judge::<Both>(&wired(wiring), &words))
}

fn read(bank: u32, row: u32) -> Operation {
    Operation::Access(Request::from_numbers([0, bank, row, 0, 0, 0]))
}

/// What a pair stands for.
fn operation(sheet: &Sheet, first: u32, second: u32) -> Result<Operation, u32> {
    pair::read(sheet, first, second).map(|reading| reading.operation)
}

#[test]
fn banks_and_rows_on_their_pins() {
    let words = [
        (0xA0000, [(0, 0), (0, 0)]),
        (0xB0000, [(4, 0), (0, 16_384)]),
        (0xACABC, [(3, 0x0ABC), (3, 0x0ABC)]),
        (0xBFFFF, [(7, 16_383), (3, 32_767)]),
        (0xB7FFF, [(5, 16_383), (1, 32_767)]),
        (0xAFFFF, [(3, 16_383), (3, 16_383)]),
    ];
    for (first, with) in words {
        for (wiring, (bank, row)) in WIRINGS.into_iter().zip(with) {
            let (sheet, request) = (wired(wiring), read(bank, row));
            assert_eq!(operation(&sheet, first, DESL), Ok(request));
            assert_eq!(pair::write(&sheet, &request), Ok((first, DESL)));
        }
    }
}

#[test]
fn ranges_of_banks_and_rows() {
    let ends = [
        (3, 16_383, [true, true]),
        (4, 0, [true, false]),
        (7, 0, [true, false]),
        (8, 0, [false, false]),
        (0, 16_384, [false, true]),
        (0, 32_767, [false, true]),
        (0, 32_768, [false, false]),
        (u32::MAX, 0, [false, false]),
        (0, u32::MAX, [false, false]),
        (3, 32_767, [false, true]),
        (7, 16_384, [false, false]),
    ];
    for (bank, row, with) in ends {
        for (wiring, fits) in WIRINGS.into_iter().zip(with) {
            let refused = if fits { None } else { Some(26) };
            let written = pair::write(&wired(wiring), &read(bank, row));
            assert_eq!(written.err(), refused, "{bank}, {row}, {wiring}");
            let mut controller = Controller::<History>::fresh(wired(wiring));
            let offered = controller.offer(Request::from_numbers([0, bank, row, 0, 0, 0]));
            assert_eq!(offered.err(), refused, "{bank}, {row}, {wiring}");
        }
    }
}

/// RC is 5: four clocks after a read, one that differs in BA2 alone is of the same bank with four banks.
#[test]
fn one_bank_or_two() {
    let accepted = Verdict::Accepted;
    for (old, new) in [(&READ, &READ_OF_4), (&READ_OF_4, &READ)] {
        assert_eq!(verdicts(&[(201, old), (206, new)]), [accepted; 2]);
        let early = [accepted, breach(206, 7)];
        assert_eq!(verdicts(&[(201, old), (205, new)]), early);
        // A pair of another bank between them changes nothing.
        let between = |clock| verdicts(&[(201, old), (203, &READ_OF_1), (clock, new)]);
        assert_eq!(between(205), early);
        assert_eq!(between(206), [accepted; 2]);
    }
    let after_a_write = |clock| verdicts(&[(201, &WRITE_OF_4), (clock, &READ)]);
    assert_eq!(after_a_write(205), [accepted, breach(206, 7)]);
    assert_eq!(after_a_write(206), [accepted; 2]);
    // Where both are broken, the lower number stands.
    let both = [breach(205, 8), breach(205, 7)];
    assert_eq!(verdicts(&[(201, &READ), (204, &WRITE_OF_4)]), both);
}

/// MRS wants BA2 low with either wiring, and a write's lower lane has its VW0 there.
#[test]
fn closing_words_are_the_same() {
    for (mode, second) in [("regular", 0x90042), ("extended", 0x94000)] {
        let verdicts = verdicts(&[(201, &[RDA, second])]);
        assert_eq!(verdicts, [breach(202, 4); 2], "{mode}");
        let read = WIRINGS.map(|wiring| pair::read(&wired(wiring), RDA, second));
        assert_eq!(read, [Err(28); 2], "{mode}");
    }
    let write = |lower| Operation::Access(Request::from_numbers([1, 2, 9, 3, lower, 4]));
    let lanes = [(0xD1003, 4), (0xC3003, 2), (0xD3003, 1)];
    for wiring in WIRINGS {
        for (second, lower) in lanes {
            let words = (0x88009, second);
            assert_eq!(pair::write(&wired(wiring), &write(lower)), Ok(words));
            let read = operation(&wired(wiring), 0x88009, second);
            assert_eq!(read, Ok(write(lower)));
        }
        assert_eq!(pair::read(&wired(wiring), 0x88009, 0xC1003), Err(28));
    }
    assert_eq!(verdicts(&[(201, &[0x88009, 0xC1003])]), [breach(202, 5); 2]);
}

#[test]
fn wirings_other_than_four_and_eight() {
    for wiring in (0..20).chain([32, 260, 264, 65_540, 65_544, 1 << 31 | 8, u32::MAX]) {
        let refused = if WIRINGS.contains(&wiring) {
            None
        } else {
            Some(34)
        };
        assert_eq!(wired(wiring).refusal(), refused, "{wiring}");
    }
    let faults = [(0, 38, 20), (1, 6, 20), (2, 3, 20), (3, 4, 20)];
    let later = [
        (4, 4499, 34),
        (4, 8501, 34),
        (5, 1, 34),
        (9, 14, 34),
        (9, 17, 34),
    ];
    for (field, value, number) in faults.into_iter().chain(later) {
        assert_eq!(wired(5).with(field, value).refusal(), Some(number));
    }
}

/// A sheet without the field means eight banks, and so does the call that does not take it.
#[test]
fn a_sheet_without_its_wiring() {
    assert_eq!(Sheet::of_eight(SHEET_E.without_wiring()), SHEET_E);
    let calls = [6, READ_OF_4[0], READ_OF_4[1], 4, 0, 4, 0, 0, 0, 0, 9];
    let without = [&[1], &SHEET_E.without_wiring()[..], &calls].concat();
    let with = |wiring| [&[13], &wired(wiring).numbers()[..], &calls].concat();
    let of_eight = "config 0\naccess 0 4 0 0 0 0 4 2\noffered\nwaiting 1\nrequest 0 4 0 0 0 0\n";
    let of_four = "config 0\naccess 0 0 16384 0 0 0 4 2\nrefused 26\nwaiting 0\n";
    assert_eq!(expected(&without), of_eight);
    assert_eq!(expected(&with(8)), of_eight);
    assert_eq!(expected(&with(4)), of_four);
    let refused = "config 34\nrefused 34\nrefused 34\nwaiting 0\n";
    assert_eq!(expected(&with(0)), refused);
}

/// Only rule 7 asks for banks, and two of eight are one of four: what passes with four passes with eight.
#[test]
fn four_banks_ask_for_more() {
    let random = Random::new(10);
    let (mut both, mut eight_alone) = (0, 0);
    for way in 0..6_000 {
        let sheet = pool::sheet(&random);
        let words = near::near_words(&random, &mut Coverage::default(), sheet, way);
        let [eight, four] =
            WIRINGS.map(|wiring| judge::<Summary>(&Sheet { wiring, ..sheet }, &words));
        match (eight, four) {
            (Verdict::Accepted, Verdict::Accepted) => both += 1,
            (Verdict::Accepted, Verdict::Breach { number, .. }) => {
                assert_eq!(number, 7);
                eight_alone += 1;
            }
            _ => assert_ne!(four, Verdict::Accepted, "{sheet:?}, way {way}"),
        }
    }
    assert!(both > 1_000 && eight_alone > 20, "{both}, {eight_alone}");
}
