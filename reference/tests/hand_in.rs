//! The exam site's number and the marker program's line: the paper's cases and the refusals' order.

use reference::both::Both;
use reference::hand_in::{marker_line, site_number};
use reference::judge::LONGEST;
use reference::script::bytes;
use reference::sheet::{Sheet, SHEET_E};
use reference::suites::sheets::SPOILED;
use reference::summary::Summary;
use reference::word::{DESL, FN, PD};

fn number(sheet: &Sheet, trace: &[u8]) -> u32 {
    site_number::<Both>(sheet, trace)
}

fn line(trace: &[u8]) -> String {
    marker_line::<Both>(trace)
}

#[test]
fn lines_of_the_paper() {
    assert_eq!(line(&[0; 4]), "breach 0 2\n");
    assert_eq!(line(&[]), "accepted 0\n");
}

#[test]
fn words_are_little_endian() {
    assert_eq!(line(&[0x00, 0x00, 0x0C, 0x00]), "accepted 1\n");
    assert_eq!(line(&[0x00, 0x0C, 0x00, 0x00]), "breach 0 2\n");
    assert_eq!(number(&SHEET_E, &[0x00, 0x00, 0x0C, 0x00]), 0);
    assert_eq!(number(&SHEET_E, &[0x00, 0x00, 0x1C, 0x00]), 1);
}

#[test]
fn clock_times_64_plus_the_breach() {
    let mut words = vec![DESL; 100];
    words[77] = 0;
    assert_eq!(number(&SHEET_E, &bytes(&words)), 77 * 64 + 2);
    assert_eq!(line(&bytes(&words)), "breach 77 2\n");
    // PD may go low at 77, and two wake-up words follow.
    words[77] = DESL & !PD;
    assert_eq!(line(&bytes(&words)), "accepted 100\n");
    words[79] = PD;
    assert_eq!(number(&SHEET_E, &bytes(&words)), 79 * 64 + 13);
    assert_eq!(line(&bytes(&words)), "breach 79 13\n");
    let read = [DESL, PD | FN, DESL];
    assert_eq!(number(&SHEET_E, &bytes(&read)), 2 * 64 + 6);
    assert_eq!(number(&SHEET_E, &bytes(&read[..2])), 0);
}

#[test]
fn refusals_of_the_site_in_their_order() {
    let longest = 4 * LONGEST as usize;
    let trace = bytes(&vec![DESL; LONGEST as usize + 2]);
    let long = |sheet: &Sheet, length: usize| site_number::<Summary>(sheet, &trace[..length]);
    assert_eq!(long(&SHEET_E, longest), 0);
    assert_eq!(long(&SHEET_E, longest + 4), 24);
    assert_eq!(long(&SHEET_E, longest + 5), 29);
    assert_eq!(long(&SHEET_E, longest + 1), 29);
    assert_eq!(long(&SHEET_E, longest - 1), 29);
    let mut sheet = SHEET_E;
    for (field, value, refusal) in SPOILED.into_iter().rev() {
        sheet = sheet.with(field, value);
        for length in [0, 1, 4, longest + 1, longest + 4] {
            assert_eq!(long(&sheet, length), refusal);
        }
    }
}

#[test]
fn refusals_of_the_marker_in_their_order() {
    let idle = bytes(&vec![DESL; 20_000]);
    assert_eq!(line(&idle[..65_536]), "accepted 16384\n");
    for length in [65_537, 65_538, 65_540, 70_000] {
        assert_eq!(line(&idle[..length]), "refused 25\n");
    }
    for length in [1, 2, 3, 5, 65_533, 65_535] {
        assert_eq!(line(&idle[..length]), "refused 29\n");
    }
}
