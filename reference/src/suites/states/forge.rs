//! Numbers for states: whole ones, single events, damage.

use crate::coverage::Coverage;
use crate::judge::LONGEST;
use crate::pair::{column_pins, Request};
use crate::random::Random;
use crate::sheet::{Sheet, NUMBERS};
use crate::state::{bare_checker, ControllerNumbers, CONTROLLER};
use crate::state::{BREACH, CLOCK, COUNT, EVENT, PLACE};
use crate::suites::pool;
use crate::summary::EVENTS;
use crate::wiring::{self, greatest_bank, greatest_row};
use std::ops::Range;

/// Where the REF words of a state are, the last one first.
const REFS: Range<usize> = EVENT + 13..EVENT + EVENTS;

/// Where the wiring of a state's sheet is.
const WIRING: usize = NUMBERS - 1;

/// Clocks on either side of each edge.
pub const CLOCKS: [u32; 8] = [0, 1, 2, 40, LONGEST - 1, LONGEST, LONGEST + 1, u32::MAX];

/// Clocks of an event around that of its state, and the greatest.
fn around(clock: u32) -> [u32; 4] {
    [
        clock.wrapping_sub(1),
        clock,
        clock.wrapping_add(1),
        u32::MAX,
    ]
}

/// A bare state at a clock, and then with each event at and around that clock.
pub fn each_event<const N: usize>(
    clock: u32,
    bare: impl Fn() -> [u32; N],
    mut each: impl FnMut([u32; N]),
) {
    each(bare());
    for event in EVENT..EVENT + EVENTS {
        for value in around(clock) {
            let mut numbers = bare();
            numbers[event] = value;
            each(numbers);
        }
    }
}

/// A controller that remembers nothing, with requests waiting that fit and others behind them.
pub fn bare_controller(
    random: &Random,
    sheet: &Sheet,
    (clock, opened, count): (u32, u32, u32),
) -> ControllerNumbers {
    let mut numbers = [0; CONTROLLER];
    numbers[..BREACH].copy_from_slice(&bare_checker(sheet, clock, opened)[..BREACH]);
    numbers[COUNT] = count;
    let dirt = random.once_in(2);
    for place in 0..16 {
        let request = match (place < count as usize, dirt) {
            (true, _) => some_request(random, sheet).numbers(),
            (false, true) => std::array::from_fn(|_| random.bits()),
            (false, false) => Request::VACANT.numbers(),
        };
        put_place(&mut numbers, place, request);
    }
    numbers
}

/// Puts a request's numbers into a place.
pub fn put_place(numbers: &mut ControllerNumbers, place: usize, request: [u32; 6]) {
    let at = PLACE + 6 * place;
    numbers[at..at + 6].copy_from_slice(&request);
}

/// A request that fits the sheet, at times with every field at its greatest.
pub fn some_request(random: &Random, sheet: &Sheet) -> Request {
    let mut request = pool::request(random, sheet, random.once_in(2), random.below(8));
    if random.once_in(6) {
        (request.bank, request.row) = (greatest_bank(sheet), greatest_row(sheet));
        request.column = column_pins(sheet);
        request.lower = if request.write { sheet.bl } else { 0 };
        request.upper = if sheet.org == 16 { request.lower } else { 0 };
    }
    request
}

/// A clock: early, near the spacings of refreshes, near the last one, or any.
pub fn some_clock(random: &Random) -> u32 {
    match random.below(8) {
        0 => random.below(4),
        1 | 2 => random.between(1, 80),
        3 | 4 => random.between(190, 420),
        5 => random.between(420, 1_100),
        6 => random.between(LONGEST - 3, LONGEST),
        _ => random.below(LONGEST),
    }
}

/// The clock of an event: never, or before the state's by about one of the spacings.
fn some_event(random: &Random, sheet: &Sheet, clock: u32) -> u32 {
    let data = [sheet.cl + sheet.bl / 2, sheet.wl() + 2].map(|clocks| clocks - 1);
    let counts = [sheet.rc(), sheet.rwd, sheet.wrd, sheet.rsc, sheet.refc];
    let spacings = [&counts[..], &data].concat();
    let long = [200, sheet.d() - sheet.rc(), sheet.d(), sheet.w()];
    let before = match random.below(7) {
        0 | 1 => return 0,
        2 => random.between(1, 12),
        3 | 4 => random.pick(&spacings) + random.below(4),
        5 => random.pick(&long) + random.below(4) - 1,
        _ => random.below(clock + 1),
    };
    clock.saturating_sub(before.max(1))
}

/// Puts the modes and the last two refreshes so that a state with a late enough clock is ready for
/// reads and writes, at times with the next refresh due.
fn put_start_up(random: &Random, sheet: &Sheet, numbers: &mut [u32]) {
    put_modes(numbers);
    let refresh = random.pick(&[40, 40, sheet.d(), sheet.d() + 1]);
    for (event, before) in [(13, refresh), (14, refresh + 70)] {
        numbers[EVENT + event] = numbers[CLOCK].saturating_sub(before);
    }
}

/// Puts the modes of a start-up.
pub fn put_modes(numbers: &mut [u32]) {
    for (event, before) in [(0, 203), (1, 202)] {
        numbers[EVENT + event] = numbers[CLOCK].saturating_sub(before);
    }
}

/// Puts REF words into the first m places: the furthest so many clocks before that of the state, the
/// others between in their order, of which one is 0 if there is to be a gap.
pub fn put_refs(random: &Random, numbers: &mut [u32], (m, before, gap): (u32, u32, bool)) {
    let clock = numbers[CLOCK];
    let furthest = clock - before;
    let refs = &mut numbers[REFS];
    refs.fill_with(|| random.between(furthest, clock - 1));
    refs.sort_by(|a, b| b.cmp(a));
    let (kept, never) = refs.split_at_mut(m as usize);
    never.fill(0);
    kept[m as usize - 1] = furthest;
    if gap {
        kept[random.below(m - 1) as usize] = 0;
    }
}

/// Puts events into a state with an accepted sheet, all of them before its clock.
pub fn put_events(random: &Random, sheet: &Sheet, numbers: &mut [u32]) {
    let clock = numbers[CLOCK];
    for event in &mut numbers[EVENT..EVENT + EVENTS] {
        *event = some_event(random, sheet, clock);
    }
    if random.once_in(2) {
        put_start_up(random, sheet, numbers);
    }
    // Mostly in order, as refreshes are, and none overdue, which would hide all later breaches.
    if !random.once_in(4) {
        numbers[REFS].sort_by(|a, b| b.cmp(a));
    }
    if !random.once_in(4) {
        put_in_time(sheet, numbers);
    }
}

/// Moves the REF words of a state that stand further back than rule 3 allows.
fn put_in_time(sheet: &Sheet, numbers: &mut [u32]) {
    let clock = numbers[CLOCK];
    for (event, m) in numbers[REFS].iter_mut().zip(1..) {
        if *event != 0 {
            *event = clock.saturating_sub(m * sheet.d()).max(*event);
        }
    }
}

/// Puts a fault into the sheet, at times two of them: a number out of its range, or CL 4 with a REFC
/// that is too short for it.
pub fn spoil_sheet(random: &Random, numbers: &mut [u32]) {
    for _ in 0..random.between(1, 2) {
        match random.below(4) {
            0 => (numbers[1], numbers[9]) = (4, random.between(15, 17)),
            _ => put_out_of_range(random, numbers),
        }
    }
}

/// Puts a number of the sheet out of its range.
fn put_out_of_range(random: &Random, numbers: &mut [u32]) {
    let (field, value) = random.pick(&[
        (WIRING, 0),
        (WIRING, 5),
        (WIRING, 16),
        (WIRING, u32::MAX),
        (0, 38),
        (1, 6),
        (2, 3),
        (3, 4),
        (4, 8501),
        (4, 3749),
        (5, 8),
        (6, 0),
        (7, 8),
        (8, 16),
        (9, 64),
        (9, 14),
    ]);
    numbers[field] = value;
}

/// The name of a state that was made with one wiring and is put with the other.
pub fn rewired_name(state: &str) -> String {
    format!("{state} of the other wiring put")
}

/// Leaves the numbers of a state that was reached, seldom, or puts the other wiring, or does damage.
pub fn alter(random: &Random, coverage: &mut Coverage, state: &str, numbers: &mut [u32]) {
    match random.below(8) {
        0 => {}
        1 => rewire(coverage, state, numbers),
        _ => damage(random, numbers),
    }
}

/// Puts the other wiring into a state's sheet, which is an accepted one.
fn rewire(coverage: &mut Coverage, state: &str, numbers: &mut [u32]) {
    numbers[WIRING] = 12 - numbers[WIRING];
    let banks = wiring::name(numbers[WIRING]);
    coverage.meet(&format!("{}, {banks}", rewired_name(state)));
}

/// Puts some events not before the clock.
pub fn delay_events(random: &Random, numbers: &mut [u32]) {
    let clock = numbers[CLOCK];
    for _ in 0..random.between(1, 3) {
        let event = EVENT + random.below(EVENTS as u32) as usize;
        numbers[event] = clock.saturating_add(random.below(3)).max(1);
    }
}

/// Changes one number of a state: by one, to about the clock, or to any.
pub fn damage(random: &Random, numbers: &mut [u32]) {
    let place = random.below(numbers.len() as u32) as usize;
    let (clock, old) = (numbers[CLOCK], numbers[place]);
    numbers[place] = random.pick(&[
        old.wrapping_add(1),
        old.wrapping_sub(1),
        clock,
        clock.wrapping_sub(1),
        0,
        old ^ 1 << random.below(32),
        random.bits(),
    ]);
}
