//! The lines of pairs that are read and of tallies, with their data clocks, and the suites' check of them.

use reference::expected::expected;
use reference::script::{script, Call};
use reference::sheet::{Sheet, SHEET_E};
use reference::state::bare_checker;
use reference::suites::data::check;
use reference::word::DESL;
use reference::written::{EXTENDED, LOW, RDA, READ, REFRESH, REGULAR, WRITE};

#[test]
fn lines_of_the_calls() {
    let words = || [READ, WRITE, REFRESH].concat();
    let config = |sheet: Sheet| Call::ConfigWired(sheet.numbers());
    let pair = |[first, second]: [u32; 2]| Call::ReadPair(first, second);
    let tallies = || [Call::Count(words()), Call::CountAnyway(words())];
    let pairs = [READ, WRITE, REGULAR, EXTENDED, REFRESH, [RDA, LOW]].map(pair);
    let of_2 = [config(SHEET_E.with(2, 2)), pair(WRITE)];
    let of_33 = [config(SHEET_E.with(9, 17)), pair(READ)];
    let calls = [
        &pairs[..],
        &tallies(),
        &of_2,
        &tallies(),
        &of_33,
        &tallies(),
    ]
    .concat();
    let lines = [
        "access 0 0 0 0 0 0 4 2",
        "access 1 0 0 0 4 4 3 2",
        "regular 0 0 0",
        "extended 0 0 0",
        "refresh 0 0",
        "refused 28",
        "counts 1 1 0 1 0 4",
        "counts 0 1 1 0 1 0 4",
        "config 0",
        "access 1 0 0 0 1 1 3 1",
        "counts 1 1 0 1 0 2",
        "counts 0 1 1 0 1 0 2",
        "config 33",
        "refused 33",
        "refused 33",
        "counts 33 0 0 0 0 0 0",
    ];
    let text = expected(&script(&calls));
    assert_eq!(text.lines().collect::<Vec<_>>(), lines);
    assert!(check(&calls, &text).is_ok());
}

/// The configuration decides, and not the sheet that the checker was put on.
#[test]
fn by_the_configuration() {
    let put = Call::PutChecker(Box::new(bare_checker(&SHEET_E.with(2, 3), 0, DESL)));
    let tally = Call::Count(READ.to_vec());
    let calls = [put, Call::ReadPair(RDA, DESL), tally, Call::ShowChecker];
    let text = expected(&script(&calls));
    assert!(text.starts_with("access 0 0 0 0 0 0 4 2\ncounts 1 0 0 0 0 2\nchecker 37 4 3 16 "));
}

/// What the suites find wrong with the line of a call on a sheet; calls before it have lines too.
fn found(sheet: Sheet, call: Call, line: &str) -> Option<(usize, String)> {
    let calls = [
        Call::Offer([0, 2, 7, 9, 0, 0]),
        Call::Waiting,
        Call::ConfigWired(sheet.numbers()),
        call,
    ];
    let before = "offered\nwaiting 1\nrequest 0 2 7 9 0 0\nconfig 0\n";
    check(&calls, &format!("{before}{line}\n")).err()
}

#[test]
fn wrong_lines_of_pairs() {
    let lines = [
        // From the first word, the other latency, one clock more, BL, the words of the lanes, nothing.
        ("access 1 0 0 0 1 1 3 2", "access 1 0 0 0 1 1 4 2"),
        ("access 0 0 0 0 0 0 4 2", "access 0 0 0 0 0 0 3 2"),
        ("access 0 0 0 0 0 0 4 2", "access 0 0 0 0 0 0 5 2"),
        ("access 0 0 0 0 0 0 4 2", "access 0 0 0 0 0 0 4 4"),
        ("access 1 0 0 0 1 1 3 2", "access 1 0 0 0 1 1 3 1"),
        ("access 1 0 0 0 1 1 3 2", "access 1 0 0 0 1 1"),
        ("access 0 0 0 0 0 0 4 2", "access 0 0 0 0 0 0 4"),
        ("access 0 0 0 0 0 0 4 2", "access 0 0 0 0 0 0 4 2 0"),
        ("access 0 0 0 0 0 0 4 2", "access 0 0 0 0 0 0 4 02"),
        ("access 0 0 0 0 0 0 4 2", "access 2 0 0 0 0 0 4 2"),
        ("regular 1 0 0", "regular 1 4 2"),
        ("regular 1 0 0", "regular 1"),
        ("extended 5 0 0", "extended 5 4 0"),
        ("refresh 0 0", "refresh 0 2"),
        ("refresh 0 0", "refresh"),
        ("refused 28", "(no line)"),
    ];
    for (right, wrong) in lines {
        let of = |line| found(SHEET_E, Call::ReadPair(0, 0), line);
        assert_eq!(of(right), None);
        assert_eq!(of(wrong).expect(wrong).0, 3);
    }
}

#[test]
fn wrong_lines_of_tallies() {
    let (of_2, refused) = (SHEET_E.with(2, 2), SHEET_E.with(9, 17));
    let lines = [
        (SHEET_E, "counts 3 2 9 9 9 10", "counts 3 2 9 9 9 5"),
        (SHEET_E, "counts 3 2 9 9 9 10", "counts 3 2 9 9 9 6"),
        (SHEET_E, "counts 3 2 9 9 9 10", "counts 3 2 9 9 9"),
        (SHEET_E, "counts 0 0 9 9 9 0", "counts 0 0 9 9 9 2"),
        (SHEET_E, "counts 0 0 0 0 0 0", "refused 30"),
        (of_2, "counts 3 2 9 9 9 5", "counts 3 2 9 9 9 10"),
        (refused, "refused 33", "counts 0 0 0 0 0 0"),
        (refused, "refused 33", "refused 22"),
    ];
    for (sheet, right, wrong) in lines {
        let of = |line| found(sheet, Call::Count(vec![]), line);
        assert_eq!(of(right), None);
        assert_eq!(of(wrong).expect(wrong).0, 3);
    }
    let anyway = |sheet, line| found(sheet, Call::CountAnyway(vec![]), line);
    assert_eq!(anyway(SHEET_E, "counts 0 3 2 9 9 9 10"), None);
    assert_eq!(anyway(refused, "counts 33 0 0 0 0 0 0"), None);
    for line in [
        "counts 0 0 0 0 0 0 0",
        "counts 33 0 0 0 0 9 0",
        "counts 33",
        "refused 33",
    ] {
        assert!(anyway(refused, line).is_some(), "{line}");
    }
}
