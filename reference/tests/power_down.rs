//! Power down: when PD may go low, what is ignored while it stays so, and the two wake-up words. Clocks
//! are worked out by hand from the paper.

use reference::both::Both;
use reference::counts::counts;
use reference::hand_in::marker_line;
use reference::judge::{breach, judge, Verdict};
use reference::pair::{self, Operation, Request};
use reference::script::bytes;
use reference::sheet::{Sheet, SHEET_E};
use reference::summary::Summary;
use reference::word::DESL;
use reference::written::{started, trace, At, LOW, RDA, WRA};
use reference::written::{EXTENDED, READ, READ_OF_1, REFRESH, REGULAR, WRITE, WRITE_OF_1};

/// PD and CS low.
const LOW_CS: u32 = 0;

/// The verdict on sheet E of words at their clocks.
fn at(words: &[At]) -> Verdict {
    judge::<Both>(&SHEET_E, &trace(words))
}

/// The verdict on sheet E of words from clock 0 on.
fn on(words: &[u32]) -> Verdict {
    at(&[(0, words)])
}

/// The verdict on sheet E of words at their clocks after the start-up.
fn after_start_up(words: &[At]) -> Verdict {
    judge::<Both>(&SHEET_E, &started(words))
}

const ACCEPTED: Verdict = Verdict::Accepted;

#[test]
fn at_clock_0() {
    assert_eq!(on(&[LOW]), ACCEPTED);
    assert_eq!(on(&[LOW | 0x3FFFF]), ACCEPTED);
    assert_eq!(on(&[LOW_CS]), breach(0, 2));
    assert_eq!(on(&[LOW | 1 << 20]), breach(0, 1));
    assert_eq!(on(&[1 << 20]), breach(0, 1));
    assert_eq!(marker_line::<Summary>(&[0; 4]), "breach 0 2\n");
    assert_eq!(marker_line::<Summary>(&bytes(&[LOW])), "accepted 1\n");
}

/// RC is 5 and CL + BL/2 is 6 after the LAL at 202, so PD may go low at 208.
#[test]
fn after_a_read() {
    let low = |k| after_start_up(&[(201, &READ), (k, &[LOW])]);
    assert_eq!(low(208), ACCEPTED);
    for k in 203..208 {
        assert_eq!(low(k), breach(k as u32, 2));
    }
}

/// The clocks from the first word of a read and of a write at which PD may go low, on every CL and BL:
/// at BL 2 the clocks after a write's LAL are WL + 2 and not WL + 1. RC is 5, 5 and 6.
#[test]
fn after_reads_and_writes_of_every_part() {
    let rows = [
        (3, 2, [5, 5]),
        (3, 4, [6, 5]),
        (4, 2, [6, 6]),
        (4, 4, [7, 6]),
        (5, 2, [7, 7]),
        (5, 4, [8, 7]),
    ];
    for (cl, bl, least) in rows {
        let (period, wiring) = (6000, 8);
        let sheet = Sheet {
            cl,
            bl,
            period,
            wiring,
            ..SHEET_E
        };
        let words = |operation| <[u32; 2]>::from(pair::write(&sheet, &operation).unwrap());
        let regular = words(Operation::Regular(false));
        for (write, least) in [(0, least[0]), (1, least[1])] {
            let lane = 2 * write;
            let request = Request::from_numbers([write, 5, 9, 3, lane, lane]);
            let access = words(Operation::Access(request));
            let low = |clocks: u32| {
                let start_up: [At; 3] = [(0, &EXTENDED), (7, &regular), (14, &REFRESH)];
                let clock = 201 + clocks as usize;
                let then: [At; 3] = [(32, &REFRESH), (201, &access), (clock, &[LOW])];
                judge::<Both>(&sheet, &trace(&[start_up, then].concat()))
            };
            assert_eq!(low(least), ACCEPTED, "CL {cl}, BL {bl}, write {write}");
            assert_eq!(low(least - 1), breach(200 + least, 2));
        }
    }
}

/// Two banks: the read at 201 asks for 208 and the write behind it for 211; the write at 201 asks for 207
/// and the read behind it for 210.
#[test]
fn after_both() {
    let write_last = |k| after_start_up(&[(201, &READ), (205, &WRITE_OF_1), (k, &[LOW])]);
    let read_last = |k| after_start_up(&[(201, &WRITE), (203, &READ_OF_1), (k, &[LOW])]);
    assert_eq!(write_last(211), ACCEPTED);
    assert_eq!(write_last(210), breach(210, 2));
    assert_eq!(write_last(207), breach(207, 2));
    assert_eq!(read_last(210), ACCEPTED);
    assert_eq!(read_last(209), breach(209, 2));
}

/// RSC is 7, from the first word of a mode, and REFC 18, from that of a refresh.
#[test]
fn after_a_mode_and_a_refresh() {
    for mode in [EXTENDED, REGULAR] {
        let low = |k| at(&[(0, &mode), (k, &[LOW])]);
        assert_eq!(low(7), ACCEPTED);
        assert_eq!(low(6), breach(6, 2));
        assert_eq!(low(2), breach(2, 2));
    }
    assert_eq!(at(&[(0, &REFRESH), (18, &[LOW])]), ACCEPTED);
    assert_eq!(at(&[(0, &REFRESH), (17, &[LOW])]), breach(17, 2));
    let quick = Sheet { rsc: 2, ..SHEET_E };
    let words = trace(&[(0, &EXTENDED), (2, &[LOW])]);
    assert_eq!(judge::<Both>(&quick, &words), ACCEPTED);
}

#[test]
fn with_a_pair_open() {
    assert_eq!(on(&[RDA, LOW]), breach(1, 2));
    assert_eq!(on(&[WRA, LOW]), breach(1, 2));
    assert_eq!(on(&[WRA, LOW_CS]), breach(1, 2));
    // 2 is ahead of the rules of a closing word.
    assert_eq!(on(&[RDA, 0x4001]), breach(1, 2));
}

#[test]
fn with_cs_low() {
    for word in [LOW_CS, 0x20000, 0x3FFFF] {
        assert_eq!(at(&[(3, &[word])]), breach(3, 2));
    }
}

/// Pins up to 18 are ignored while PD stays low: no pair opens, and nothing is closed.
#[test]
fn while_pd_stays_low() {
    let stays = [LOW_CS, 0x20000, 0x7FFFF, LOW, 0x3FFFF, 0x4000];
    let words = [&[LOW], &stays[..]].concat();
    assert_eq!(on(&words), ACCEPTED);
    // Two wake-up words and a mode pair at once: none of these words was a mode or a refresh.
    assert_eq!(at(&[(0, &words), (9, &EXTENDED)]), ACCEPTED);
    for bit in 20..32 {
        assert_eq!(on(&[LOW, 1 << bit]), breach(1, 1));
    }
}

#[test]
fn wake_up_words() {
    for first in [RDA, WRA, 0x9FFFF] {
        assert_eq!(on(&[LOW, first]), breach(1, 13));
        assert_eq!(on(&[LOW, DESL, first]), breach(2, 13));
        assert_eq!(on(&[LOW, DESL, DESL, first]), ACCEPTED);
        assert_eq!(on(&[LOW, LOW_CS, DESL, DESL, first]), ACCEPTED);
        assert_eq!(on(&[LOW, LOW_CS, DESL, first]), breach(3, 13));
    }
    // A wake-up word is DESL whatever its other pins are.
    assert_eq!(on(&[LOW, 0xFFFFF, 0xFFFFF, RDA]), ACCEPTED);
    assert_eq!(on(&[LOW, 1 << 20 | RDA]), breach(1, 1));
    assert_eq!(on(&[LOW, DESL, 1 << 31 | RDA]), breach(2, 1));
}

/// PD low in the second wake-up word goes low while one is due; behind it, PD may go low.
#[test]
fn low_again() {
    assert_eq!(on(&[LOW, DESL, LOW]), breach(2, 2));
    assert_eq!(on(&[LOW, DESL, LOW_CS]), breach(2, 2));
    assert_eq!(on(&[LOW, DESL, DESL, LOW]), ACCEPTED);
    assert_eq!(on(&[LOW, DESL, DESL, LOW_CS]), breach(3, 2));
    assert_eq!(on(&[LOW, DESL, DESL, LOW, DESL, LOW]), breach(5, 2));
    assert_eq!(on(&[LOW, DESL, DESL, LOW, DESL, DESL, LOW]), ACCEPTED);
}

/// A read at the first clock after the wake-up words, and nothing else follows from a sleep.
#[test]
fn a_read_after_a_sleep() {
    let sleep: [At; 2] = [(201, &READ), (208, &[LOW])];
    let then = |words: &[At]| after_start_up(&[&sleep, words].concat());
    assert_eq!(then(&[(211, &READ)]), ACCEPTED);
    assert_eq!(then(&[(210, &READ)]), breach(210, 13));
    assert_eq!(then(&[(209, &READ)]), breach(209, 13));
    assert_eq!(then(&[(211, &REFRESH), (229, &[LOW])]), ACCEPTED);
    assert_eq!(then(&[(211, &REFRESH), (228, &[LOW])]), breach(228, 2));
    // The 200 clocks of the start-up go on while PD is low.
    let early = |clock| after_start_up(&[(100, &[LOW, LOW]), (clock, &READ)]);
    assert_eq!(early(201), ACCEPTED);
    assert_eq!(early(200), breach(201, 6));
}

/// REF words at 15 and 33 allow 15 + 2 × 780 = 1575. PD may go low from 50 on, REFC after 32.
#[test]
fn rule_3_goes_on_while_pd_is_low() {
    let lows = [LOW; 1527];
    assert_eq!(after_start_up(&[(50, &lows[1..])]), ACCEPTED);
    assert_eq!(after_start_up(&[(50, &lows)]), breach(1576, 3));
    assert_eq!(after_start_up(&[(49, &lows)]), breach(49, 2));
    // Going low at the clock that is too late: 3 if it is permitted, else 2, which is the lower number.
    assert_eq!(after_start_up(&[(1576, &[LOW])]), breach(1576, 3));
    assert_eq!(after_start_up(&[(1576, &[LOW_CS])]), breach(1576, 2));
    // Asleep from 50 up to a clock, and words at a later one.
    let then = |last: usize, clock, words: &[u32]| {
        let asleep = &lows[..=last - 50];
        after_start_up(&[(50, asleep), (clock, words)])
    };
    assert_eq!(then(1575, 1576, &[LOW_CS]), breach(1576, 3));
    assert_eq!(then(1575, 1576, &[1 << 20]), breach(1576, 1));
    // 3 is ahead of 13, in either wake-up word.
    assert_eq!(then(1575, 1576, &[RDA]), breach(1576, 3));
    assert_eq!(then(1574, 1576, &[RDA]), breach(1576, 3));
    assert_eq!(then(1573, 1575, &[RDA]), breach(1575, 13));
    // A REF at the last clock, with the wake-up words before it.
    assert_eq!(then(1571, 1574, &REFRESH), ACCEPTED);
}

/// A trace that ends asleep, or with a wake-up word due, breaches nothing by that.
#[test]
fn ends() {
    for length in 1..6 {
        let words = [LOW, LOW_CS, DESL, DESL, RDA];
        assert_eq!(on(&words[..length]), ACCEPTED);
    }
}

/// Reads, writes, modes, refreshes, DESL words and clocks of data: a low word outside of a pair is DESL and
/// opens nothing; a closing word closes its pair whatever its PD; a high word opens one right behind a low word.
#[test]
fn counted() {
    let numbers = |words: &[u32]| counts(&SHEET_E, words).unwrap().numbers();
    assert_eq!(numbers(&[LOW, LOW_CS, 0x20000]), [0, 0, 0, 0, 3, 0]);
    assert_eq!(numbers(&[LOW_CS, RDA, DESL]), [1, 0, 0, 0, 1, 2]);
    assert_eq!(numbers(&[RDA, LOW, RDA, LOW_CS]), [1, 0, 1, 0, 0, 2]);
    assert_eq!(numbers(&[WRA, LOW, WRA, LOW_CS]), [0, 1, 0, 1, 0, 2]);
    assert_eq!(numbers(&[LOW, WRA, WRA, LOW_CS, WRA]), [0, 0, 0, 1, 2, 0]);
}

/// A pair with PD low in either word cannot be read.
#[test]
fn pairs_with_pd_low() {
    let pd = 1 << 19;
    for [first, second] in [READ, WRITE, EXTENDED, REFRESH] {
        assert!(pair::read(&SHEET_E, first, second).is_ok());
        assert_eq!(pair::read(&SHEET_E, first & !pd, second), Err(28));
        assert_eq!(pair::read(&SHEET_E, first, second & !pd), Err(28));
    }
}
