//! States of a checker about a power down: the one number for what the next word meets, the tests of rule 2
//! by the timestamps, and refusal 19.

use reference::checker::Step;
use reference::expected::expected;
use reference::sheet::{Sheet, SHEET_E};
use reference::state::{self, bare_checker, CheckerNumbers, CLOCK, EVENT, OPEN};
use reference::walk::Walk;
use reference::word::DESL;
use reference::written::LOW;

/// What a checker keeps while PD is low, and after the first wake-up word.
const ASLEEP: u32 = 0x40000;
const WAKE_UP: u32 = 0xE0000;
/// Places of events: mode, read, write and the last REF word.
const MODE: usize = EVENT + 2;
const READ: usize = EVENT + 3;
const WRITE: usize = EVENT + 4;
const LAST_REF: usize = EVENT + 13;

/// A checker on sheet E that remembers nothing.
fn checker(clock: u32, first: u32) -> CheckerNumbers {
    bare_checker(&SHEET_E, clock, first)
}

/// The answer to a word, and the number for what the next one meets. A walk gives and leaves the same.
fn step(numbers: &CheckerNumbers, word: u32) -> (Step, u32) {
    let mut put = state::checker(numbers);
    let answer = put.step(word);
    let words = vec![word; numbers[CLOCK] as usize + 1];
    let mut walk = Walk::at(state::checker(numbers), &words);
    assert_eq!(walk.advance(), Some(answer));
    let after = state::checker_numbers(&put);
    assert_eq!(state::checker_numbers(&walk.checker), after);
    (answer, after[OPEN])
}

fn breach(clock: u32, number: u32) -> Step {
    Step::Breach { clock, number }
}

#[test]
fn asleep_or_waking_before_the_first_clocks() {
    for (first, refused_up_to) in [(ASLEEP, 1), (0x60001, 1), (WAKE_UP, 2), (u32::MAX, 2)] {
        for clock in 0..4 {
            let (answer, _) = step(&checker(clock, first), DESL);
            let wanted = if clock < refused_up_to {
                Step::Refused(19)
            } else {
                Step::Pass
            };
            assert_eq!(answer, wanted, "{first:x} at {clock}");
        }
    }
}

/// The number after a word that passes, by the number before it, whatever bits have no meaning in that.
#[test]
fn what_the_next_word_meets() {
    let opening = 0xA0123;
    let nothing = [DESL, 0xDFFFF, 0xFFFC_0000 | DESL, 0xC0001];
    for first in nothing {
        let from = |word| step(&checker(9, first), word);
        assert_eq!(from(DESL), (Step::Pass, DESL));
        assert_eq!(from(0xFFFFF), (Step::Pass, DESL));
        assert_eq!(from(opening), (Step::Pass, opening));
        assert_eq!(from(LOW | 0x2_0007), (Step::Pass, ASLEEP));
        assert_eq!(from(0), (breach(9, 2), first));
    }
    for first in [ASLEEP, 0x7FFFF, 0xFFF4_0000, 0x60000] {
        let from = |word| step(&checker(9, first), word);
        assert_eq!(from(DESL), (Step::Pass, WAKE_UP));
        assert_eq!(from(0), (Step::Pass, ASLEEP));
        assert_eq!(from(0x7FFFF), (Step::Pass, ASLEEP));
        assert_eq!(from(opening), (breach(9, 13), first));
        assert_eq!(from(1 << 20), (breach(9, 1), first));
    }
    for first in [WAKE_UP, u32::MAX, 0xFFFFF] {
        let from = |word| step(&checker(9, first), word);
        assert_eq!(from(DESL), (Step::Pass, DESL));
        assert_eq!(from(0xFFFFF), (Step::Pass, DESL));
        assert_eq!(from(opening), (breach(9, 13), first));
        assert_eq!(from(LOW), (breach(9, 2), first));
    }
}

/// CS low is an open pair, PD low or not: any word closes it, and a low one may not.
#[test]
fn an_open_pair_with_pd_low() {
    for first in [0x80000, 0, 0x3FFF, 0xFFF0_0000] {
        let from = |word| step(&checker(9, first), word);
        assert_eq!(from(0x80000), (Step::Pass, DESL));
        assert_eq!(from(LOW), (breach(9, 2), first));
        assert_eq!(from(0), (breach(9, 2), first));
    }
    assert_eq!(step(&checker(0, 0), DESL), (Step::Refused(19), 0));
}

/// Each timestamp at the clock from which PD may go low at 300, and one later: a closing word's clock, so
/// that it is one clock further for RSC and REFC, which count from first words.
#[test]
fn timestamps() {
    let bl_2 = Sheet { bl: 2, ..SHEET_E };
    let cl_3 = Sheet {
        cl: 3,
        bl: 2,
        period: 6000,
        ..SHEET_E
    };
    let rows = [
        (SHEET_E, MODE, 294),
        (SHEET_E, LAST_REF, 283),
        (SHEET_E, READ, 294),
        (SHEET_E, WRITE, 295),
        (bl_2, READ, 295),
        (bl_2, WRITE, 295),
        (cl_3, READ, 296),
        (cl_3, WRITE, 296),
    ];
    for (sheet, event, latest) in rows {
        for (first, goes_low) in [(DESL, true), (ASLEEP, false)] {
            let mut numbers = bare_checker(&sheet, 300, first);
            numbers[event] = latest;
            assert_eq!(step(&numbers, LOW), (Step::Pass, ASLEEP), "{event}");
            numbers[event] = latest + 1;
            let early = match goes_low {
                true => (breach(300, 2), first),
                false => (Step::Pass, ASLEEP),
            };
            assert_eq!(step(&numbers, LOW), early, "{event}");
        }
    }
}

/// The events of banks and modes of one kind, and REF words behind the last, are no grounds.
#[test]
fn timestamps_that_are_no_grounds() {
    let grounds = [MODE, READ, WRITE, LAST_REF];
    for event in (EVENT..EVENT + 21).filter(|event| !grounds.contains(event)) {
        let mut numbers = checker(300, DESL);
        numbers[event] = 299;
        assert_eq!(step(&numbers, LOW), (Step::Pass, ASLEEP), "{event}");
    }
}

/// A sleep as the replay program shows it: the number after each word, and the breach recorded.
#[test]
fn shown_by_the_replay_program() {
    let step = |word| [2, 1, word, 103];
    let script: Vec<u32> = [LOW, 0, DESL, 0xA0000].into_iter().flat_map(step).collect();
    let sheet = "37 4 4 16 5000 2 3 1 7 18 8";
    let never = ["0"; 21].join(" ");
    let state = |clock, first, breach| format!("checker {sheet} {clock} {first} {never} {breach}");
    let lines = [
        "pass 1".to_string(),
        state(1, ASLEEP, "0 0"),
        "pass 2".to_string(),
        state(2, ASLEEP, "0 0"),
        "pass 3".to_string(),
        state(3, WAKE_UP, "0 0"),
        "breach 3 13".to_string(),
        state(3, WAKE_UP, "3 13"),
    ];
    assert_eq!(expected(&script).lines().collect::<Vec<_>>(), lines);
}
