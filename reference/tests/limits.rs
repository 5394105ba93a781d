//! Traces on every sheet in limits. Clocks are worked out by hand from the papers.

use reference::both::Both;
use reference::judge::LONGEST;
use reference::limits::{check_within, Limits, Shown};
use reference::random::Random;
use reference::sheet::{Sheet, SHEET_E};
use reference::suites::limits::{refused, some_limits};
use reference::suites::sheets::SPOILED;
use reference::summary::Summary;
use reference::word::DESL;
use reference::written::{started_slowly, trace, At};
use reference::written::{EXTENDED, LOW, READ, READ_OF_1, REFRESH, REGULAR, WRITE_OF_1};

/// Sheet E with a number at a place among its own.
fn e(place: usize, value: u32) -> Sheet {
    SHEET_E.with(place, value)
}

const PERIOD: usize = 4;
const RBD: usize = 5;
const RWD: usize = 6;
const WRD: usize = 7;
const RSC: usize = 8;
const REFC: usize = 9;

/// The answer from one sheet to another.
fn within(least: Sheet, greatest: Sheet, words: &[u32]) -> Result<Option<Shown>, u32> {
    check_within::<Both>(least, greatest, words)
}

/// The answer for limits of E in which a single number has room.
fn of(place: usize, least: u32, greatest: u32, words: &[u32]) -> Result<Option<Shown>, u32> {
    within(e(place, least), e(place, greatest), words)
}

/// The answer that shows E with this number.
fn breach(clock: u32, number: u32, place: usize, value: u32) -> Result<Option<Shown>, u32> {
    Ok(Some(Shown {
        clock,
        number,
        sheet: e(place, value),
    }))
}

const ALWAYS: Result<Option<Shown>, u32> = Ok(None);

/// A count from one to the next: at the clock that the least allows, only the greatest is in breach, a
/// clock later none is, and a clock earlier the least is too; RBD 2 and WRD 1 cannot be undercut.
fn edge(place: usize, first: &[u32], then: &[u32], clock: usize, number: u32) {
    let least = SHEET_E.numbers()[place];
    let answer = |clock| {
        let words = started_slowly(&[(201, first), (clock, then)]);
        of(place, least, least + 1, &words)
    };
    let last = (clock + then.len() - 1) as u32;
    assert_eq!(answer(clock), breach(last, number, place, least + 1));
    assert_eq!(answer(clock + 1), ALWAYS);
    if ![RBD, WRD].contains(&place) {
        let early = answer(clock - 1);
        assert_eq!(early, breach(last - 1, number, place, least));
    }
}

/// E has RBD 2, RSC 7 and REFC 18, and from a LAL on RWD 3 and WRD 1.
#[test]
fn each_count_at_its_greatest() {
    edge(RBD, &READ, &READ_OF_1, 203, 8);
    edge(RWD, &READ, &WRITE_OF_1, 205, 8);
    edge(WRD, &WRITE_OF_1, &READ, 203, 8);
    edge(RSC, &REGULAR, &REFRESH, 208, 9);
    edge(RSC, &EXTENDED, &[LOW], 208, 2);
    edge(REFC, &REFRESH, &WRITE_OF_1, 219, 10);
    edge(REFC, &REFRESH, &[LOW], 219, 2);
}

/// The write at 206 is 4 clocks after the read's LAL: RWD 5, 6 and 7 forbid it, whatever the others are.
#[test]
fn sheets_between_are_in_breach_too() {
    let words = started_slowly(&[(201, &READ), (206, &WRITE_OF_1)]);
    let least = Sheet::from_numbers([37, 4, 4, 16, 4500, 2, 1, 1, 2, 18, 8]);
    let greatest = Sheet::from_numbers([37, 4, 4, 16, 8500, 5, 7, 7, 15, 40, 8]);
    let limits = Limits { least, greatest };
    let found = within(least, greatest, &words).unwrap().unwrap();
    assert!(limits.hold(&found.sheet));
    assert_eq!((found.clock, found.number, found.sheet.rwd), (207, 8, 7));
    for rwd in [5, 6, 7] {
        let told = Shown {
            sheet: Sheet { rwd, ..SHEET_E },
            ..found
        };
        assert_eq!(limits.fault::<Both>(&words, &told), None);
    }
    assert_eq!(within(least, Sheet { rwd: 4, ..greatest }, &words), ALWAYS);
}

/// Nine refreshes, the last REF word so many clocks after the first, which is at 15.
fn nine(spacing: usize) -> Vec<u32> {
    let mut refreshes: Vec<At> = (0..8).map(|n| (14 + 18 * n, &REFRESH[..])).collect();
    refreshes.push((14 + spacing, &REFRESH));
    trace(&refreshes)
}

/// W is 641 from 4993 to 5000 ps, and 642 at 4992.
#[test]
fn the_least_period_alone() {
    let words = nine(641);
    assert_eq!(
        of(PERIOD, 4992, 5000, &words),
        breach(656, 12, PERIOD, 4992)
    );
    assert_eq!(
        of(PERIOD, 4500, 8500, &words),
        breach(656, 12, PERIOD, 4500)
    );
    assert_eq!(of(PERIOD, 4993, 5000, &words), ALWAYS);
    assert_eq!(of(PERIOD, 4992, 5000, &nine(642)), ALWAYS);
    assert_eq!(
        of(PERIOD, 4993, 5000, &nine(640)),
        breach(655, 12, PERIOD, 4993)
    );
}

/// D is 780 at 5000 ps and 779 at 5001; the REF word is at 1.
#[test]
fn the_greatest_period_alone() {
    let idle = |last| trace(&[(0, &REFRESH), (last, &[DESL])]);
    assert_eq!(
        of(PERIOD, 5000, 5001, &idle(781)),
        breach(781, 3, PERIOD, 5001)
    );
    assert_eq!(of(PERIOD, 4500, 5000, &idle(781)), ALWAYS);
    assert_eq!(of(PERIOD, 5000, 5001, &idle(780)), ALWAYS);
    // 8500 has D 458, and so is in breach at 460 already.
    let found = of(PERIOD, 8500, 8500, &idle(781));
    assert_eq!(found, breach(460, 3, PERIOD, 8500));
}

/// REF words at 1 and 781, and eight more, the last at 781 + 641.
#[test]
fn both_ends_of_the_period_and_none_between() {
    let mut refreshes: Vec<At> = vec![(0, &REFRESH)];
    refreshes.extend((0..8).map(|n| (780 + 18 * n, &REFRESH[..])));
    refreshes.push((1421, &REFRESH));
    let words = trace(&refreshes);
    assert_eq!(of(PERIOD, 4993, 5000, &words), ALWAYS);
    assert_eq!(
        of(PERIOD, 4992, 5000, &words),
        breach(1422, 12, PERIOD, 4992)
    );
    assert_eq!(of(PERIOD, 4993, 5001, &words), breach(781, 3, PERIOD, 5001));
    let limits = Limits {
        least: e(PERIOD, 4992),
        greatest: e(PERIOD, 5001),
    };
    let found = within(limits.least, limits.greatest, &words);
    let right = [breach(1422, 12, PERIOD, 4992), breach(781, 3, PERIOD, 5001)];
    assert!(right.contains(&found));
    for answer in right {
        let told = answer.unwrap().unwrap();
        assert_eq!(limits.fault::<Both>(&words, &told), None);
    }
}

#[test]
fn limits_of_one_sheet_and_no_words() {
    let words = started_slowly(&[(201, &READ), (203, &WRITE_OF_1)]);
    let answer = within(SHEET_E, SHEET_E, &words);
    assert_eq!(answer, breach(204, 8, RWD, 3));
    assert_eq!(within(SHEET_E, SHEET_E, &started_slowly(&[])), ALWAYS);
    let greatest = Sheet::from_numbers([37, 4, 4, 16, 8500, 7, 7, 7, 15, 63, 8]);
    assert_eq!(within(SHEET_E, greatest, &[]), ALWAYS);
}

#[test]
fn corners_and_sheets() {
    let greatest = Sheet::from_numbers([37, 4, 4, 16, 5002, 3, 4, 2, 8, 19, 8]);
    let count = |greatest| {
        let limits = Limits {
            least: SHEET_E,
            greatest,
        };
        let (corners, sheets) = (limits.corners(), limits.sheets());
        assert_eq!(sheets.len() as u64, limits.count());
        assert!(corners.iter().all(|corner| sheets.contains(corner)));
        assert!(sheets.iter().all(|sheet| limits.hold(sheet)));
        (corners.len(), sheets.len())
    };
    assert_eq!(count(SHEET_E), (1, 1));
    assert_eq!(count(e(RSC, 15)), (2, 9));
    assert_eq!(count(greatest), (64, 96));
}

#[test]
fn the_first_sheets_refusals_come_first() {
    for (place, value, number) in SPOILED {
        let first = e(place, value);
        assert_eq!(within(first, SHEET_E, &[0]), Err(number));
        assert_eq!(within(SHEET_E, first, &[0]), Err(number));
        for (place, value, other) in SPOILED {
            let second = e(place, value);
            assert_eq!(within(first, second, &[0]), Err(number));
            assert_eq!(within(second, first, &[0]), Err(other));
        }
    }
}

/// At 6000 ps both grades and every CL are accepted.
#[test]
fn sheets_that_are_apart() {
    let slow = e(PERIOD, 6000);
    let others = [(0, 50), (1, 3), (1, 5), (2, 2), (3, 8), (10, 4)];
    for (place, value) in others {
        let other = slow.with(place, value);
        assert_eq!(within(slow, other, &[0]), Err(35), "{place}");
        assert_eq!(within(other, slow, &[0]), Err(35), "{place}");
    }
    let most = Sheet::from_numbers([37, 4, 4, 16, 8500, 7, 7, 7, 15, 63, 8]);
    for place in PERIOD..=REFC {
        let own = SHEET_E.numbers()[place];
        let above = e(place, own + 1);
        assert_eq!(within(above, SHEET_E, &[]), Err(35), "{place}");
        assert_eq!(
            within(above, most.with(place, own), &[]),
            Err(35),
            "{place}"
        );
        assert_eq!(
            within(SHEET_E, most.with(place, own), &[]),
            ALWAYS,
            "{place}"
        );
        assert_eq!(within(SHEET_E, above, &[]), ALWAYS, "{place}");
    }
}

#[test]
fn a_trace_that_is_too_long() {
    let mut words = vec![DESL; LONGEST as usize + 1];
    let answer = |least, greatest, words: &[u32]| check_within::<Summary>(least, greatest, words);
    let (longest, roomy) = (LONGEST as usize, e(RSC, 8));
    assert_eq!(answer(SHEET_E, roomy, &words[..longest]), ALWAYS);
    words[100] = 0;
    assert_eq!(answer(SHEET_E, roomy, &words), Err(24));
    assert_eq!(answer(roomy, SHEET_E, &words), Err(35));
    assert_eq!(answer(e(REFC, 17), roomy, &words), Err(33));
    assert_eq!(answer(SHEET_E, e(REFC, 64), &words), Err(22));
    let found = answer(SHEET_E, SHEET_E, &words[..longest]);
    assert_eq!(found, breach(100, 2, RSC, 7));
}

#[test]
fn drawn_limits_are_accepted() {
    let random = Random::new(12);
    for _ in 0..20_000 {
        let limits = some_limits(&random);
        assert_eq!(limits.refusals(0), [], "{limits:?}");
    }
    let mut unfit = 0;
    refused::each(&random, 1, &mut Default::default(), &mut |limits| {
        unfit += usize::from(!limits.refusals(0).is_empty());
    });
    assert!(unfit > 5_000);
}
