//! The last line of a listing: how long the words last, against the reference.

mod common;

use common::{assembled, bytes, listing_at, run};
use reference::sheet::{Sheet, SHEET_E};
use reference::time::length;
use trace::{Format, PERIOD, PERIODS};

/// The most words that are timed.
const LONGEST_TIMED: usize = 16_777_216;

/// So many words DESL, as bytes.
fn idle(words: usize) -> Vec<u8> {
    0xC0000u32.to_le_bytes().repeat(words)
}

/// The last line by the reference, on a sheet of grade 37 and CL 5, which allows every period.
fn wanted(words: usize, period: u32) -> String {
    let sheet = Sheet {
        cl: 5,
        period,
        ..SHEET_E
    };
    let time = length(&sheet, words as u64).expect("it has a time");
    let (whole, rest) = (time.nanoseconds, time.rest);
    format!("# lasts {whole} ns and {rest} ps, at {period} ps a clock")
}

/// The last line of the listing.
fn last(bytes: &[u8], period: u32) -> String {
    let text = listing_at(bytes, Format::default(), period);
    text.lines()
        .last()
        .expect("a listing has lines")
        .to_string()
}

#[test]
fn every_period() {
    for period in PERIODS {
        for words in [0, 1, 2, 3, 4, 203, 999, 1000, 1001] {
            assert_eq!(last(&idle(words), period), wanted(words, period));
        }
    }
}

/// Ends of the period's range with the most words, and one word more.
#[test]
fn the_longest() {
    let mut trace = idle(LONGEST_TIMED);
    for period in [3750, 4999, PERIOD, 5001, 8500] {
        assert_eq!(last(&trace, period), wanted(LONGEST_TIMED, period));
    }
    trace.extend(idle(1));
    let text = listing_at(&trace, Format::default(), PERIOD);
    let last = "# too long to be timed: more than 16777216 words";
    assert_eq!(text.lines().last(), Some(last));
    assert!(assembled(&text) == trace);
}

/// Bytes behind the last word are no clock.
#[test]
fn a_rest() {
    for rest in 0..4 {
        let trace = [bytes(&[0xC0000; 3]), vec![0; rest]].concat();
        assert_eq!(
            last(&trace, 3750),
            "# lasts 11 ns and 250 ps, at 3750 ps a clock"
        );
    }
}

/// 5000 ps unless another period is asked for; the words are listed alike.
#[test]
fn the_option() {
    for (options, line) in [
        (&[][..], "# lasts 15 ns and 0 ps, at 5000 ps a clock"),
        (
            &["--period", "5000"],
            "# lasts 15 ns and 0 ps, at 5000 ps a clock",
        ),
        (
            &["--period", "3750"],
            "# lasts 11 ns and 250 ps, at 3750 ps a clock",
        ),
        (
            &["--period", "8500"],
            "# lasts 25 ns and 500 ps, at 8500 ps a clock",
        ),
    ] {
        let listed = run(&[&["list"], options].concat(), &idle(3));
        let text = format!("# 3 words\n{:<40}# 0 to 2\n{line}\n", "DESL x 3");
        assert_eq!(String::from_utf8(listed.stdout).unwrap(), text);
        assert_eq!(listed.status.code(), Some(0));
    }
}
