//! The lines of a check within limits: each right answer passes for ours, and no wrong one does.

use reference::expected::{answers, expected, Answers};
use reference::random::Random;
use reference::script::{bytes, script, Call};
use reference::sheet::{Sheet, SHEET_E};
use reference::suites::{limits, pool};
use reference::word::DESL;
use reference::written::{started_slowly, READ, WRITE_OF_1};

/// Sheet E with RWD 7, RSC 8 and a period of 5001.
const GREATEST: Sheet = Sheet {
    period: 5001,
    rwd: 7,
    rsc: 8,
    ..SHEET_E
};

/// A start-up, a read at 201 and a write at 206, which RWD 5, 6 and 7 forbid.
fn words() -> Vec<u32> {
    started_slowly(&[(201, &READ), (206, &WRITE_OF_1)])
}

/// Steps, the call, and what stands behind it, on sheet E.
fn up_to(greatest: Sheet, words: Vec<u32>) -> Vec<u32> {
    let step = |count| Call::Step { count, word: DESL };
    let call = Call::CheckWithin(greatest.numbers(), words);
    script(&[step(9), call, step(0)])
}

/// What the reference has for these words up to a sheet, and its line.
fn played(greatest: Sheet, words: Vec<u32>) -> (Answers, String) {
    let answers = answers(&bytes(&up_to(greatest, words)));
    let line = answers.text.lines().nth(1).unwrap().to_string();
    (answers, line)
}

/// Whether a program may write this line for the call, and what is wrong with it otherwise.
fn passes(answers: &Answers, line: &str) -> Result<(), Option<String>> {
    let text = format!("pass 9\n{line}\npass 9\n");
    match answers.as_ours(&text) == answers.text {
        true => Ok(()),
        false => Err(answers.fault(1, line)),
    }
}

#[test]
fn a_line_of_the_call() {
    // RWD 3 to 5 and no other number: RWD 5 alone is at a corner.
    let greatest = Sheet { rwd: 5, ..SHEET_E };
    let line = "breach 207 8 on 37 4 4 16 5000 2 5 1 7 18 8";
    let text = format!("pass 9\n{line}\npass 9\n");
    assert_eq!(expected(&up_to(greatest, words())), text);
    let greatest = Sheet { rwd: 4, ..SHEET_E };
    let text = expected(&up_to(greatest, words()));
    assert_eq!(text, "pass 9\nalways\npass 9\n");
    let of_four = Sheet {
        wiring: 4,
        ..SHEET_E
    };
    let text = expected(&up_to(of_four, vec![]));
    assert_eq!(text, "pass 9\nrefused 35\npass 9\n");
}

#[test]
fn a_call_cut_short() {
    let whole = script(&[Call::CheckWithin(GREATEST.numbers(), vec![DESL; 2])]);
    assert_eq!(whole[0], 15);
    assert_eq!(expected(&whole), "always\n");
    for cut in 1..whole.len() {
        assert_eq!(expected(&whole[..cut]), "script refused\n", "{cut}");
    }
}

/// Any sheet in the limits that has RWD 5 or more, with breach 8 at 207.
#[test]
fn right_lines_pass() {
    let (answers, ours) = played(GREATEST, words());
    assert!(ours.starts_with("breach 207 8 on 37 4 4 16 "), "{ours}");
    for sheet in [
        "37 4 4 16 5000 2 5 1 7 18 8",
        "37 4 4 16 5001 2 6 1 8 18 8",
        "37 4 4 16 5001 2 7 1 7 18 8",
    ] {
        assert_eq!(
            passes(&answers, &format!("breach 207 8 on {sheet}")),
            Ok(())
        );
    }
    let other = answers.otherwise();
    assert_ne!(other, answers.text);
    assert_eq!(answers.as_ours(&other), answers.text);
}

#[test]
fn wrong_lines_do_not() {
    let (answers, _) = played(GREATEST, words());
    let faults = [
        ("always", "no sheet"),
        ("refused 35", "no sheet"),
        ("breach 207 8", "no sheet"),
        ("breach 207 8 on", "no sheet"),
        ("breach 207 8 on 37 4 4 16 5000 2 7 1 7 18", "no sheet"),
        ("breach 207 8 on 37 4 4 16 5000 2 7 1 7 18 8 8", "no sheet"),
        ("breach 207 8 on 37 4 4 16 5000 2 7 1 7 18 08", "no sheet"),
        ("breach 207 8 on 37 4 4 16 +5000 2 7 1 7 18 8", "no sheet"),
        ("breach 207 8 on 37 4 4 16 5000 2 7 1 7 18 8 ", "no sheet"),
        (
            "breach 206 8 on 37 4 4 16 5000 2 7 1 7 18 8",
            "breach 207 8",
        ),
        (
            "breach 207 9 on 37 4 4 16 5000 2 7 1 7 18 8",
            "breach 207 8",
        ),
        ("breach 207 8 on 37 4 4 16 5000 2 4 1 7 18 8", "accepted"),
        ("breach 207 8 on 37 4 4 16 5002 2 7 1 7 18 8", "limits"),
        ("breach 207 8 on 37 4 4 16 4999 2 7 1 7 18 8", "limits"),
        ("breach 207 8 on 37 4 4 16 5000 2 7 1 6 18 8", "limits"),
        ("breach 207 8 on 37 4 4 16 5000 2 7 1 7 18 4", "limits"),
        ("breach 207 8 on 50 4 4 16 5000 2 7 1 7 18 8", "limits"),
    ];
    for (line, why) in faults {
        let fault = passes(&answers, line).unwrap_err().unwrap();
        assert!(fault.contains(why), "{line}: {fault}");
    }
}

/// Where the trace is always accepted, or a sheet is refused, one line alone is right.
#[test]
fn lines_that_leave_no_choice() {
    let shown = "breach 207 8 on 37 4 4 16 5000 2 7 1 7 18 8";
    let (answers, ours) = played(Sheet { rwd: 4, ..SHEET_E }, words());
    assert_eq!((&ours[..], passes(&answers, "always")), ("always", Ok(())));
    assert_eq!(passes(&answers, shown), Err(None));
    let (answers, ours) = played(Sheet { rwd: 2, ..GREATEST }, words());
    assert_eq!(ours, "refused 35");
    for line in [shown, "always", "refused 24"] {
        assert_eq!(passes(&answers, line), Err(None));
    }
}

/// Lines that are lost, doubled or without their end are no answers, though each is right.
#[test]
fn texts_of_other_lines() {
    let (answers, ours) = played(GREATEST, words());
    for text in [
        format!("pass 9\n{ours}\n"),
        format!("pass 9\n{ours}\npass 9"),
        format!("pass 9\n{ours}\n{ours}\npass 9\n"),
        format!("{ours}\npass 9\npass 9\n"),
        format!("pass 9\n{ours}\npass 9\npass 9\n"),
        String::new(),
    ] {
        assert_ne!(answers.as_ours(&text), answers.text, "{text}");
    }
}

/// Other sheets are shown for many limits, and all of them pass.
#[test]
fn other_sheets_pass_for_ours() {
    let random = Random::new(13);
    let mut other = 0;
    for part in pool::parts() {
        for case in limits::directed(&random, &part) {
            let config = pool::config(&random, &case.limits.least);
            let call = Call::CheckWithin(case.limits.greatest.numbers(), case.words);
            let answers = answers(&bytes(&script(&[config, call])));
            let text = answers.otherwise();
            assert_eq!(answers.as_ours(&text), answers.text);
            other += usize::from(text != answers.text);
        }
    }
    assert!(other > 500, "{other}");
}
