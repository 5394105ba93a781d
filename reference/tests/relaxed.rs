//! Traces on a sheet and on one that relaxes it: both edges of each count, and a trace for each number in
//! which the sheets have to agree. Clocks are worked out by hand from the papers.

use reference::both::Both;
use reference::judge::{breach, check, Verdict};
use reference::random::Random;
use reference::script::Call;
use reference::sheet::{Sheet, SHEET_E};
use reference::suites::relaxed::{check as hold, relaxes, some_sheets};
use reference::word::DESL;
use reference::written::{started_slowly, trace, At, LOW, RDA, WRA};
use reference::written::{EXTENDED, READ, READ_OF_1, READ_OF_4, REFRESH, REGULAR, WRITE_OF_1};

const ACCEPTED: Verdict = Verdict::Accepted;

/// The verdict of the whole check on both sheets.
fn on(sheets: [Sheet; 2], words: &[u32]) -> [Verdict; 2] {
    sheets.map(|sheet| check::<Both>(&sheet, words).expect("an accepted sheet"))
}

/// A pair at 201 and further words at each of three clocks in turn: before the edges of both sheets, at
/// that of the relaxed one, and at that of the stricter one. `number` is the rule's, at the last word.
fn three(sheets: [Sheet; 2], first: &[u32], then: &[u32], clocks: [u32; 3], number: u32) {
    assert!(relaxes(&sheets[0], &sheets[1]));
    let breached = |k: u32| breach(k + then.len() as u32 - 1, number);
    let [before, relaxed, stricter] = clocks;
    let wanted = [
        (before, [breached(before); 2]),
        (relaxed, [breached(relaxed), ACCEPTED]),
        (stricter, [ACCEPTED; 2]),
    ];
    for (k, verdicts) in wanted {
        let words = started_slowly(&[(201, first), (k as usize, then)]);
        assert_eq!(on(sheets, &words), verdicts, "{number} at {k}");
    }
}

/// Sheet E with another RBD, and so on.
fn rbd(rbd: u32) -> Sheet {
    Sheet { rbd, ..SHEET_E }
}

fn rwd(rwd: u32) -> Sheet {
    Sheet { rwd, ..SHEET_E }
}

fn wrd(wrd: u32) -> Sheet {
    Sheet { wrd, ..SHEET_E }
}

fn rsc(rsc: u32) -> Sheet {
    Sheet { rsc, ..SHEET_E }
}

fn refc(refc: u32) -> Sheet {
    Sheet { refc, ..SHEET_E }
}

/// From first word to first word: 3, 4 and 5 clocks after the read at 201.
#[test]
fn edges_of_rbd() {
    three([rbd(5), rbd(4)], &READ, &READ_OF_1, [204, 205, 206], 8);
    // RBD 2 cannot be undercut.
    let words = started_slowly(&[(201, &READ), (203, &READ_OF_1)]);
    assert_eq!(on([rbd(3), SHEET_E], &words), [breach(204, 8), ACCEPTED]);
}

/// From the LAL at 202.
#[test]
fn edges_of_rwd() {
    three([rwd(4), SHEET_E], &READ, &WRITE_OF_1, [204, 205, 206], 8);
    three([SHEET_E, rwd(2)], &READ, &WRITE_OF_1, [203, 204, 205], 8);
    three([rwd(7), rwd(2)], &READ, &WRITE_OF_1, [203, 208, 209], 8);
}

#[test]
fn edges_of_wrd() {
    three([wrd(3), wrd(2)], &WRITE_OF_1, &READ, [203, 204, 205], 8);
    // WRD 1 cannot be undercut.
    let words = started_slowly(&[(201, &WRITE_OF_1), (203, &READ)]);
    assert_eq!(on([wrd(2), SHEET_E], &words), [breach(204, 8), ACCEPTED]);
}

/// From first word to first word, or to the word that goes low.
#[test]
fn edges_of_rsc() {
    for mode in [&EXTENDED, &REGULAR] {
        three([rsc(8), SHEET_E], mode, &REFRESH, [207, 208, 209], 9);
        three([SHEET_E, rsc(6)], mode, &READ, [206, 207, 208], 9);
        three([rsc(8), SHEET_E], mode, &[LOW], [207, 208, 209], 2);
        three([SHEET_E, rsc(6)], mode, &[LOW], [206, 207, 208], 2);
    }
}

#[test]
fn edges_of_refc() {
    three([refc(19), SHEET_E], &REFRESH, &REFRESH, [218, 219, 220], 10);
    three(
        [refc(19), SHEET_E],
        &REFRESH,
        &WRITE_OF_1,
        [218, 219, 220],
        10,
    );
    three([refc(19), SHEET_E], &REFRESH, &[LOW], [218, 219, 220], 2);
    // Below 18 a sheet is refused at CL 4, and not at CL 5, whose mode is 80052.
    assert_eq!(check::<Both>(&refc(17), &[]), Err(33));
    assert!(!relaxes(&SHEET_E, &refc(17)));
    let at_cl_5 = |refc| Sheet {
        cl: 5,
        refc,
        ..SHEET_E
    };
    let mode_at = |k| trace(&[(0, &REFRESH), (k, &[RDA, 0x80052])]);
    let of = |k| on([at_cl_5(16), at_cl_5(15)], &mode_at(k));
    assert_eq!(of(14), [breach(15, 10); 2]);
    assert_eq!(of(15), [breach(16, 10), ACCEPTED]);
    assert_eq!(of(16), [ACCEPTED; 2]);
}

/// The write at 208 is 6 clocks after the read's LAL, which RWD 7 forbids, and 2 after the refresh. The
/// second access of bank 1 is 4 clocks after the first. The mode is 2 clocks after the read, and no count
/// mends that.
#[test]
fn breaches_that_are_left() {
    let words = started_slowly(&[(201, &READ), (206, &REFRESH), (208, &WRITE_OF_1)]);
    assert_eq!(
        on([rwd(7), SHEET_E], &words),
        [breach(209, 8), breach(209, 10)]
    );
    let words = started_slowly(&[(201, &READ), (205, &WRITE_OF_1), (209, &READ_OF_1)]);
    assert_eq!(
        on([rwd(4), SHEET_E], &words),
        [breach(206, 8), breach(210, 7)]
    );
    let words = started_slowly(&[(201, &READ), (203, &EXTENDED)]);
    assert_eq!(on([rsc(15), rsc(2)], &words), [breach(204, 11); 2]);
}

/// The grade is in no rule. At CL 4, 5500 is the least period of grade 50.
#[test]
fn the_grade_may_differ() {
    let of = |grade, rwd| Sheet {
        grade,
        rwd,
        period: 5500,
        ..SHEET_E
    };
    for [old, new] in [[37, 50], [50, 37]] {
        three(
            [of(old, 4), of(new, 3)],
            &READ,
            &WRITE_OF_1,
            [204, 205, 206],
            8,
        );
        assert!(relaxes(&of(old, 3), &of(new, 3)));
    }
    let too_short = Sheet {
        grade: 50,
        ..SHEET_E
    };
    assert!(!relaxes(&SHEET_E, &too_short));
}

/// The regular MRS at 21 carries CL 4 and BL 4.
#[test]
fn cl_and_bl_have_to_agree() {
    let slow = Sheet {
        period: 6000,
        ..SHEET_E
    };
    for other in [
        Sheet { cl: 3, ..slow },
        Sheet { cl: 5, ..slow },
        Sheet { bl: 2, ..slow },
    ] {
        assert!(!relaxes(&slow, &other));
        assert_eq!(
            on([slow, other], &started_slowly(&[])),
            [ACCEPTED, breach(21, 4)]
        );
    }
}

/// D0000 has the lower lane write four words, and the upper lane's pins low: by 8 there is none.
#[test]
fn the_organisation_has_to_agree() {
    let by_8 = Sheet { org: 8, ..SHEET_E };
    let words = started_slowly(&[(201, &[WRA, 0xD0000])]);
    assert!(!relaxes(&by_8, &SHEET_E));
    assert_eq!(on([by_8, SHEET_E], &words), [ACCEPTED, breach(202, 5)]);
}

/// D is 780 at 5000 ps and 779 at 5001. W is 641 at 5000 ps and at 4993, and 642 at 4992.
#[test]
fn the_period_has_to_agree() {
    let of = |period| Sheet { period, ..SHEET_E };
    let idle = trace(&[(0, &REFRESH), (781, &[DESL])]);
    assert!(!relaxes(&SHEET_E, &of(5001)));
    assert_eq!(on([SHEET_E, of(5001)], &idle), [ACCEPTED, breach(781, 3)]);
    let mut refreshes: Vec<At> = (0..8).map(|n| (14 + 18 * n, &REFRESH[..])).collect();
    refreshes.push((655, &REFRESH));
    let nine = trace(&refreshes);
    assert!(!relaxes(&SHEET_E, &of(4992)));
    assert_eq!(on([SHEET_E, of(4993)], &nine), [ACCEPTED; 2]);
    assert_eq!(on([SHEET_E, of(4992)], &nine), [ACCEPTED, breach(656, 12)]);
}

/// The reads differ in BA2 alone and are 4 clocks apart, RC being 5.
#[test]
fn the_wiring_has_to_agree() {
    let of_four = Sheet {
        wiring: 4,
        ..SHEET_E
    };
    let words = started_slowly(&[(201, &READ), (205, &READ_OF_4)]);
    assert!(!relaxes(&SHEET_E, &of_four));
    assert_eq!(on([SHEET_E, of_four], &words), [ACCEPTED, breach(206, 7)]);
}

#[test]
fn drawn_sheets_are_relaxed() {
    let random = Random::new(10);
    for _ in 0..20_000 {
        let [stricter, relaxed] = some_sheets(&random);
        assert!(relaxes(&stricter, &relaxed), "{stricter:?}, {relaxed:?}");
        let equal = stricter.counts() == relaxed.counts();
        assert_eq!(relaxes(&relaxed, &stricter), equal);
    }
}

/// The calls of the lines below: words walked over, stepped by and checked, on E and then on RWD 2.
fn calls() -> Vec<Call> {
    let words = vec![DESL; 3];
    let step = |count| Call::Step { count, word: DESL };
    let judged = [
        Call::Walk(words.clone()),
        step(2),
        step(1),
        Call::Check(words),
    ];
    let on = |sheet: Sheet| [&[Call::ConfigWired(sheet.numbers())], &judged[..]].concat();
    [on(SHEET_E), on(rwd(2))].concat()
}

/// The lines with a breach at a clock before the last.
fn breached(clock: u32, number: u32) -> String {
    let line = format!("breach {clock} {number}");
    format!("{line}\nrefused 23\n{line}\nrefused 23\n{line}\n")
}

/// What a program's lines on both sheets give: what was seen, or the call at fault.
fn held(first: &str, second: &str) -> Result<Vec<String>, usize> {
    let text = format!("config 0\n{first}config 0\n{second}");
    hold(&calls(), &text).map_err(|(call, _)| call)
}

/// The call at fault is the first on the second sheet whose line does not follow that on the first.
#[test]
fn the_sentence_is_held_to_lines() {
    let good = "end\nend\npass 2\npass 3\naccepted 3\n";
    let last = "breach 2 8\nrefused 23\npass 2\nbreach 2 8\nbreach 2 8\n";
    assert_eq!(held(good, good).unwrap().len(), 5);
    for bad in [&breached(1, 8), last] {
        assert!(held(bad, bad).is_ok());
        assert!(held(bad, good).is_ok());
        assert_eq!(held(good, bad), Err(6));
    }
    assert!(held(&breached(1, 8), last).is_ok());
    assert_eq!(held(last, &breached(1, 8)), Err(6));
    assert!(held(&breached(1, 8), &breached(1, 10)).is_ok());
    assert_eq!(held(&breached(1, 8), &breached(1, 7)), Err(6));
    assert_eq!(held(&breached(1, 8), &breached(0, 12)), Err(6));
    // A step that breaches alone, a check that does, and one that counts other words.
    let but = |from: &str, to: &str| held(good, &good.replacen(from, to, 1));
    assert_eq!(but("pass 2", "breach 1 2"), Err(7));
    assert_eq!(but("pass 3", "refused 23"), Err(8));
    assert_eq!(but("accepted 3", "breach 2 8"), Err(9));
    assert_eq!(but("accepted 3", "accepted 2"), Err(9));
    // The other way round nothing is asked.
    let swapped = [&calls()[5..], &calls()[..5]].concat();
    let text = format!("config 0\n{good}config 0\n{last}");
    let seen = hold(&swapped, &text).unwrap();
    assert_eq!(seen[4], "tightened, 3: accepted, then breach");
}
