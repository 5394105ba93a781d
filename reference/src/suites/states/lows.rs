//! States in which PD goes low: each ground of rule 2 by the events of the state, on either side of its
//! edge, and the events that are no ground.

use super::phases::{some_first, ASLEEP, STANDBY, WAKE_UP_DUE};
use crate::coverage::Coverage;
use crate::past::Past;
use crate::random::Random;
use crate::sheet::Sheet;
use crate::state::{bare_checker, CheckerNumbers, EVENT};
use crate::suites::pool;
use crate::summary::{Summary, NAMES};

/// Places of the events that are grounds, and their names.
const MODE: usize = 2;
const READ: usize = 3;
const WRITE: usize = 4;
const LAST_REF: usize = 13;
const GROUNDS: [usize; 4] = [MODE, READ, WRITE, LAST_REF];

/// The grounds that waiting mends and that can stand alone.
const SPACINGS: [&str; 4] = ["RSC", "REFC", "read data", "write data"];
/// Those that hold for as long as the data or less, and so never stand alone.
const WITH_DATA: [&str; 2] = ["RC after a read", "RC after a write"];
/// The other grounds.
const OTHERS: [&str; 3] = ["pair open", "wake-up word due", "CS low"];

/// The greatest REFC: a pair so many clocks ago is no ground on any sheet.
const LONG_PAST: u32 = 63;

/// What a call that takes a word must meet.
pub fn promised(call: &str) -> Vec<String> {
    let mut promised = Vec::new();
    for ground in SPACINGS {
        promised.push(format!("{call}: low, 2 by one clock for {ground} alone"));
    }
    for ground in [&SPACINGS[..], &OTHERS].concat() {
        promised.push(format!("{call}: low, 2 for {ground} alone"));
    }
    for ground in [&SPACINGS[..], &WITH_DATA].concat() {
        promised.push(format!("{call}: low, permitted at the edge of {ground}"));
    }
    let no_ground = (0..NAMES.len()).filter(|event| !GROUNDS.contains(event));
    promised.extend(no_ground.map(|event| beside(call, NAMES[event])));
    promised
}

/// The name of a word that may go low though an event stands right before.
fn beside(call: &str, event: &str) -> String {
    format!("{call}: low, permitted one clock after {event}")
}

/// Counts a word that goes low in a state that no call refuses.
pub fn count(coverage: &mut Coverage, call: &str, sheet: &Sheet, past: &Summary, word: u32) {
    let clock = past.clock();
    if !past.goes_low(word) || clock == 0 {
        return;
    }
    let at = |clock| Summary::of(clock, past.first(), past.events());
    match past.barred(sheet, word).collect::<Vec<_>>()[..] {
        [] => {
            for ground in at(clock - 1).barred(sheet, word) {
                coverage.meet(&format!("{call}: low, permitted at the edge of {ground}"));
            }
            let events = NAMES.into_iter().zip(past.events());
            for (name, _) in events.filter(|&(_, event)| event != 0 && event + 1 == clock) {
                coverage.meet(&beside(call, name));
            }
        }
        [only] => {
            coverage.meet(&format!("{call}: low, 2 for {only} alone"));
            if at(clock + 1).barred(sheet, word).next().is_none() {
                coverage.meet(&format!("{call}: low, 2 by one clock for {only} alone"));
            }
        }
        _ => {}
    }
}

/// The clocks that the closing word of such a pair stands before PD low at the least.
fn least(sheet: &Sheet, event: usize) -> u32 {
    match event {
        MODE => sheet.rsc - 1,
        READ => (sheet.rc() - 1).max(sheet.cl + sheet.bl / 2),
        WRITE => (sheet.rc() - 1).max(sheet.wl() + 2),
        _ => sheet.refc - 1,
    }
}

/// A sheet; half of them have CL 3 and BL 2, where RC and the data of a read end together.
fn some_sheet(random: &Random) -> Sheet {
    let ends_together = |part: &Sheet| (part.cl, part.bl) == (3, 2);
    let parts: Vec<Sheet> = pool::parts().into_iter().filter(ends_together).collect();
    random.pick(&[pool::sheet(random), random.pick(&parts)])
}

/// States about the edge of each ground, and with each other event one clock before.
pub fn states(random: &Random) -> Vec<CheckerNumbers> {
    let phases = [STANDBY, STANDBY, ASLEEP, WAKE_UP_DUE];
    let mut states = Vec::new();
    for (event, phase) in (0..NAMES.len()).flat_map(|event| phases.map(|phase| (event, phase))) {
        if !GROUNDS.contains(&event) {
            states.push(state(random, event, phase, |_| 1));
            continue;
        }
        for early in [0, 0, 1, 1] {
            // At RSC 2 the clock before the edge is the closing word's own.
            let before = |sheet: &Sheet| (least(sheet, event) - early).max(1);
            states.push(state(random, event, phase, before));
        }
    }
    states
}

/// A state with an event so many clocks before; at times other grounds are long past.
fn state(
    random: &Random,
    event: usize,
    phase: &str,
    before: impl Fn(&Sheet) -> u32,
) -> CheckerNumbers {
    let sheet = some_sheet(random);
    let clock = random.between(70, 700);
    let mut numbers = bare_checker(&sheet, clock, some_first(random, phase));
    for ground in GROUNDS.into_iter().filter(|_| random.once_in(2)) {
        numbers[EVENT + ground] = clock - random.between(LONG_PAST, 69);
    }
    numbers[EVENT + event] = clock - before(&sheet);
    numbers
}
