//! Limits, and sheets in them, at random.

use crate::limits::Limits;
use crate::random::Random;
use crate::sheet::{least_period, Sheet, GREATEST_PERIOD, LIMITED};
use crate::suites::pool;

/// The six numbers by name, in the paper's order.
pub const NAMES: [&str; 6] = ["period", "RBD", "RWD", "WRD", "RSC", "REFC"];

/// The place of the period among a sheet's numbers.
pub const PERIOD: usize = LIMITED.start;

/// The range of one of the six numbers on accepted sheets of a part.
pub fn range(part: &Sheet, place: usize) -> (u32, u32) {
    match place {
        PERIOD => (
            least_period(part.grade, part.cl).expect("a part"),
            GREATEST_PERIOD,
        ),
        _ => pool::count_ranges(part.cl)[place - PERIOD - 1],
    }
}

/// Limits about an accepted sheet at random: no number has room, one, some or all.
pub fn some_limits(random: &Random) -> Limits {
    let places = match random.below(10) {
        0 => vec![],
        1..=4 => vec![some_place(random)],
        5..=7 => LIMITED.filter(|_| random.once_in(2)).collect(),
        _ => LIMITED.collect(),
    };
    about(random, pool::sheet(random), &places)
}

/// Limits that hold an accepted sheet, with room at random in these places.
pub fn about(random: &Random, sheet: Sheet, places: &[usize]) -> Limits {
    let mut limits = Limits {
        least: sheet,
        greatest: sheet,
    };
    for &place in places {
        let own = sheet.numbers()[place];
        let (low, high) = range(&sheet, place);
        let room = (own - low).min(random.pick(&[0, 1, 2, random.below(own - low + 1), own]));
        limits.least = limits.least.with(place, own - room);
        let room = (high - own).min(random.pick(&[0, 1, 2, random.below(high - own + 1), high]));
        limits.greatest = limits.greatest.with(place, own + room);
    }
    limits
}

/// The place of one of the six numbers.
pub fn some_place(random: &Random) -> usize {
    PERIOD + random.below(NAMES.len() as u32) as usize
}

/// A sheet in the limits, its numbers at their ends or between.
pub fn inside(random: &Random, limits: &Limits) -> Sheet {
    LIMITED.fold(limits.least, |sheet, place| {
        let (least, greatest) = limits.ends(place);
        let value = random.pick(&[least, greatest, random.between(least, greatest)]);
        sheet.with(place, value)
    })
}

/// The names of the numbers that have room.
pub fn with_room(limits: &Limits) -> Vec<&'static str> {
    let room = |place: &usize| limits.least.numbers()[*place] < limits.greatest.numbers()[*place];
    LIMITED
        .filter(room)
        .map(|place| NAMES[place - PERIOD])
        .collect()
}
