//! States as numbers: what a checker or a controller holds, field by field, sound or not.

use crate::both::Both;
use crate::checker::Checker;
use crate::controller::{Controller, Opened};
use crate::pair::Request;
use crate::past::Past;
use crate::queue::{Queue, CAPACITY};
use crate::sheet::{Sheet, NUMBERS};
use crate::summary::{Summary, EVENTS};
use crate::word::DESL;

/// A checker: its sheet, clock and first word, 21 events, and the clock and number of its breach.
pub type CheckerNumbers = [u32; CHECKER];

/// A controller: its sheet and clock, which pair is open, 21 events, the count and 16 places.
pub type ControllerNumbers = [u32; CONTROLLER];

/// Where the numbers of either state are; its sheet comes first.
pub const CLOCK: usize = NUMBERS;
pub const OPEN: usize = CLOCK + 1;
pub const EVENT: usize = OPEN + 1;
/// Where the further numbers of a checker are.
pub const BREACH: usize = EVENT + EVENTS;
/// Where the further numbers of a controller are; a place has six.
pub const COUNT: usize = EVENT + EVENTS;
pub const PLACE: usize = COUNT + 1;
/// How many numbers each state has.
pub const CHECKER: usize = BREACH + 2;
pub const CONTROLLER: usize = PLACE + 6 * CAPACITY;

/// So many numbers from a place on.
fn part<const N: usize>(numbers: &[u32], from: usize) -> [u32; N] {
    numbers[from..from + N].try_into().unwrap()
}

/// A checker that remembers nothing.
pub fn bare_checker(sheet: &Sheet, clock: u32, first: u32) -> CheckerNumbers {
    let mut numbers = [0; CHECKER];
    numbers[..CLOCK].copy_from_slice(&sheet.numbers());
    (numbers[CLOCK], numbers[OPEN]) = (clock, first);
    numbers
}

/// The checker of these numbers.
pub fn checker(numbers: &CheckerNumbers) -> Checker<Both> {
    let [clock, first] = part(numbers, CLOCK);
    let summary = Summary::of(clock, first, part(numbers, EVENT));
    Checker {
        sheet: Sheet::from_numbers(part(numbers, 0)),
        past: Both::without_history(summary),
        breach: (numbers[BREACH], numbers[BREACH + 1]),
    }
}

/// The numbers of a checker.
pub fn checker_numbers(checker: &Checker<Both>) -> CheckerNumbers {
    let summary = checker.past.summary();
    let numbers = [
        &checker.sheet.numbers()[..],
        &[summary.clock(), summary.first()],
        &summary.events(),
        &[checker.breach.0, checker.breach.1],
    ];
    numbers.concat().try_into().unwrap()
}

/// The number of the open pair of the request at place 0; those of the further places follow.
pub const FIRST_PLACE: u32 = 4;

/// The open pair that a number stands for.
fn opened(number: u32) -> Option<Opened> {
    match number {
        0 => None,
        1 => Some(Opened::Extended),
        2 => Some(Opened::Regular),
        3 => Some(Opened::Refresh),
        _ => Some(Opened::Waiting(number - FIRST_PLACE)),
    }
}

/// The number of an open pair.
fn opened_number(opened: Option<Opened>) -> u32 {
    match opened {
        None => 0,
        Some(Opened::Extended) => 1,
        Some(Opened::Regular) => 2,
        Some(Opened::Refresh) => 3,
        Some(Opened::Waiting(place)) => FIRST_PLACE + place,
    }
}

/// The controller of these numbers.
pub fn controller(numbers: &ControllerNumbers) -> Controller<Both> {
    let place = |i| Request::from_numbers(part(numbers, PLACE + 6 * i));
    let summary = |first| Summary::of(numbers[CLOCK], first, part(numbers, EVENT));
    let mut controller = Controller {
        sheet: Sheet::from_numbers(part(numbers, 0)),
        past: Both::without_history(summary(DESL)),
        opened: opened(numbers[OPEN]),
        queue: Queue {
            count: numbers[COUNT],
            places: std::array::from_fn(place),
        },
    };
    // The first word of an open pair follows from which it is, unless 19 or the sheet refuses all calls.
    let first = |pair| controller.words_of(pair).map(|words| words.0);
    if let Some(first) = controller.opened.and_then(first) {
        controller.past = Both::without_history(summary(first));
    }
    controller
}

/// The numbers of a controller.
pub fn controller_numbers(controller: &Controller<Both>) -> ControllerNumbers {
    let summary = controller.past.summary();
    let mut numbers = [
        &controller.sheet.numbers()[..],
        &[summary.clock(), opened_number(controller.opened)],
        &summary.events(),
        &[controller.queue.count],
    ]
    .concat();
    for place in controller.queue.places {
        numbers.extend(place.numbers());
    }
    numbers.try_into().unwrap()
}
