//! Lengths in time. Nanoseconds and rests are worked out by hand from the paper.

use reference::expected::expected;
use reference::script::{script, Call};
use reference::sheet::{Sheet, SHEET_E, SHEET_E_OF_FOUR};
use reference::suites::sheets::{all_spoiled, SPOILED};
use reference::suites::time::check;
use reference::time::{length, Time};
use reference::word::DESL;

/// The greatest count.
const LIMIT: u32 = 16_777_216;

/// Sheet E at CL 5, where grade 37 allows every period from 3750 to 8500.
fn at(period: u32) -> Sheet {
    Sheet {
        cl: 5,
        period,
        ..SHEET_E
    }
}

/// The answer as nanoseconds and rest.
fn of(sheet: Sheet, count: u32) -> Result<(u64, u64), u32> {
    let pair = |time: Time| (time.nanoseconds, time.rest);
    length(&sheet, count.into()).map(pair)
}

/// Holds each count at a period to its nanoseconds and rest.
fn lengths(period: u32, answers: &[(u32, u64, u64)]) {
    for &(count, nanoseconds, rest) in answers {
        let answer = of(at(period), count);
        assert_eq!(answer, Ok((nanoseconds, rest)), "{count} at {period}");
    }
}

#[test]
fn sheet_e() {
    for sheet in [SHEET_E, SHEET_E_OF_FOUR] {
        assert_eq!(of(sheet, 0), Ok((0, 0)));
        assert_eq!(of(sheet, 1), Ok((5, 0)));
        assert_eq!(of(sheet, 2), Ok((10, 0)));
        assert_eq!(of(sheet, 815), Ok((4_075, 0)));
        assert_eq!(of(sheet, LIMIT), Ok((83_886_080, 0)));
    }
}

#[test]
fn rests_at_both_ends_of_the_period() {
    lengths(
        3750,
        &[
            (0, 0, 0),
            (1, 3, 750),
            (2, 7, 500),
            (3, 11, 250),
            (4, 15, 0),
            (5, 18, 750),
        ],
    );
    lengths(8500, &[(0, 0, 0), (1, 8, 500), (2, 17, 0), (3, 25, 500)]);
}

#[test]
fn either_side_of_a_whole_nanosecond() {
    let of_5001 = [
        (1, 5, 1),
        (499, 2_495, 499),
        (500, 2_500, 500),
        (501, 2_505, 501),
        (999, 4_995, 999),
        (1_000, 5_001, 0),
        (1_001, 5_006, 1),
        (16_776_001, 83_896_781, 1),
        (16_776_999, 83_901_771, 999),
        (16_777_000, 83_901_777, 0),
    ];
    lengths(5001, &of_5001);
    let of_4999 = [
        (1, 4, 999),
        (2, 9, 998),
        (999, 4_994, 1),
        (1_000, 4_999, 0),
        (1_001, 5_003, 999),
    ];
    lengths(4999, &of_4999);
}

#[test]
fn the_longest_traces() {
    lengths(3750, &[(LIMIT, 62_914_560, 0)]);
    lengths(8499, &[(LIMIT, 142_589_558, 784)]);
    lengths(
        8500,
        &[(LIMIT - 1, 142_606_327, 500), (LIMIT, 142_606_336, 0)],
    );
    lengths(7001, &[(LIMIT - 1, 117_457_282, 215)]);
}

/// 2^31 is 2,147,483,648 and 2^32 is 4,294,967,296, which is 1,048,576 times 4096.
#[test]
fn products_past_32_bits() {
    let of_5000 = [
        (429_496, 2_147_480, 0),
        (429_497, 2_147_485, 0),
        (858_993, 4_294_965, 0),
        (858_994, 4_294_970, 0),
    ];
    lengths(5000, &of_5000);
    let of_4096 = [
        (1_048_575, 4_294_963, 200),
        (1_048_576, 4_294_967, 296),
        (1_048_577, 4_294_971, 392),
    ];
    lengths(4096, &of_4096);
    lengths(8500, &[(505_290, 4_294_965, 0), (505_291, 4_294_973, 500)]);
}

/// The paper's case h, and the ends of the other ranges.
#[test]
fn periods_that_are_allowed() {
    let table = [
        (37, 3, 5500),
        (37, 4, 4500),
        (37, 5, 3750),
        (50, 3, 6000),
        (50, 4, 5500),
        (50, 5, 5000),
    ];
    for (grade, cl, least) in table {
        let of = |period| {
            let sheet = Sheet {
                grade,
                cl,
                period,
                ..SHEET_E
            };
            of(sheet, 1)
        };
        assert_eq!(of(least - 1), Err(21));
        assert_eq!(of(least), Ok((least as u64 / 1_000, least as u64 % 1_000)));
        assert_eq!(of(8500), Ok((8, 500)));
        assert_eq!(of(8501), Err(21));
    }
}

#[test]
fn refusals_in_their_order() {
    for sheet in [SHEET_E, SHEET_E_OF_FOUR, at(8500)] {
        assert!(of(sheet, LIMIT).is_ok());
        for count in [LIMIT + 1, LIMIT + 2, 2 * LIMIT, u32::MAX] {
            assert_eq!(of(sheet, count), Err(32));
        }
    }
    for ((place, value, number), all) in SPOILED.into_iter().zip(all_spoiled()) {
        let unfit = SHEET_E.with(place, value);
        for count in [0, 1, LIMIT, LIMIT + 1, u32::MAX] {
            assert_eq!(of(unfit, count), Err(number));
            assert_eq!(of(all, count), Err(number));
        }
    }
}

/// Counts that 32 bits would take for 0, 1, the limit and one more, and the greatest there is.
#[test]
fn counts_past_32_bits() {
    let past = [0, 1, LIMIT, LIMIT + 1].map(|count| (1 << 32) + u64::from(count));
    for count in [&past[..], &[u64::MAX]].concat() {
        assert_eq!(length(&SHEET_E, count), Err(32));
        assert_eq!(length(&SHEET_E.with(9, 17), count), Err(33));
    }
}

#[test]
fn lines_of_the_call() {
    let config = Call::ConfigWired(at(3750).numbers());
    let calls = [
        Call::Time(1),
        config,
        Call::Time(3),
        Call::Time(LIMIT + 1),
        Call::Config(SHEET_E.with(9, 17).without_wiring()),
        Call::Time(LIMIT + 1),
    ];
    let text = "time 5 0\nconfig 0\ntime 11 250\nrefused 32\nconfig 33\nrefused 33\n";
    assert_eq!(expected(&script(&calls)), text);
    assert_eq!(script(&[Call::Time(7)]), [14, 7]);
    assert_eq!(expected(&[14]), "script refused\n");
    assert_eq!(expected(&[14, 1, 14]), "time 5 0\nscript refused\n");
}

#[test]
fn nothing_that_is_held_is_changed() {
    let step = |count| Call::Step { count, word: DESL };
    let shown = [Call::ShowChecker, Call::ShowController, Call::Waiting];
    let start = [step(9), Call::Offer([0, 2, 7, 9, 0, 0]), Call::Tick(33)];
    let before = [&start[..], &shown].concat();
    let lines = |calls: &[Call]| -> Vec<String> {
        let text = expected(&script(calls));
        text.lines().map(str::to_string).collect()
    };
    for count in [0, 1, LIMIT, u32::MAX] {
        let time = [Call::Time(count)];
        let of_all = lines(&[&before[..], &time, &shown, &[step(1)]].concat());
        let apart = lines(&[&before[..], &shown, &[step(1)]].concat());
        let place = lines(&before).len();
        let without = [&of_all[..place], &of_all[place + 1..]].concat();
        assert_eq!(without, apart);
    }
}

/// What the suite finds wrong with a line for a count on a sheet; the calls before it have lines too.
fn found(sheet: Sheet, count: u32, line: &str) -> Result<Vec<String>, (usize, String)> {
    let calls = [
        Call::Offer([0, 2, 7, 9, 0, 0]),
        Call::Tick(2),
        Call::Waiting,
        Call::ConfigWired(sheet.numbers()),
        Call::Time(count),
    ];
    let before = "offered\nword 0 655360\nword 1 540672\nclock 2\nwaiting 1\nrequest 0 2 7 9 0 0\n";
    check(&calls, &format!("{before}config 0\n{line}\n"))
}

#[test]
fn right_lines_pass() {
    assert!(found(SHEET_E, 1, "time 5 0").is_ok());
    assert!(found(at(3750), 3, "time 11 250").is_ok());
    assert!(found(SHEET_E, LIMIT, "time 83886080 0").is_ok());
    assert!(found(SHEET_E, LIMIT + 1, "refused 32").is_ok());
    for (place, value, number) in SPOILED {
        let line = format!("refused {number}");
        let unfit = SHEET_E.with(place, value);
        assert!(found(unfit, 1, &line).is_ok());
        assert!(found(unfit, LIMIT + 1, &line).is_ok());
    }
}

#[test]
fn wrong_times_do_not() {
    let lines = [
        // Rounded up, the rest dropped, exchanged, a nanosecond too few, a picosecond too many.
        ("time 12 0", "12000 ps"),
        ("time 11 0", "11000 ps"),
        ("time 250 11", "250011 ps"),
        ("time 10 250", "10250 ps"),
        ("time 11 251", "11251 ps"),
        // The sum is right, and the rest is not below 1,000.
        ("time 10 1250", "below"),
        ("time 0 11250", "below"),
        ("time 11", "is due"),
        ("time 11 250 0", "is due"),
        ("time 11 0250", "is due"),
        ("time +11 250", "is due"),
        ("time 11.250", "is due"),
        ("refused 32", "is due"),
        ("", "is due"),
    ];
    for (line, why) in lines {
        let (call, fault) = found(at(3750), 3, line).unwrap_err();
        assert_eq!(call, 4);
        assert!(fault.contains(why), "{line}: {fault}");
    }
    let calls = [Call::Time(1), Call::Time(1)];
    assert_eq!(check(&calls, "time 5 0\n").unwrap_err().0, 1);
}

#[test]
fn nor_do_wrong_refusals() {
    for line in ["refused 32", "refused 24", "time 0 0", "time 83886079 1000"] {
        assert!(found(SHEET_E, LIMIT, line).is_err(), "{line}");
    }
    for line in ["time 83886085 0", "time 5 0", "refused 24"] {
        assert!(found(SHEET_E, LIMIT + 1, line).is_err(), "{line}");
    }
    for (place, value, _) in SPOILED {
        let unfit = SHEET_E.with(place, value);
        for (count, line) in [(LIMIT + 1, "refused 32"), (0, "time 0 0")] {
            assert!(found(unfit, count, line).is_err(), "{place}");
        }
    }
}
