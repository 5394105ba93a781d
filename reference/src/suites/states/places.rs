//! The place at which the request of an open pair waits, on either side of each edge.

use crate::both::Both;
use crate::controller::{Controller, Opened};
use crate::coverage::Coverage;
use crate::ground::{Ground, NO_REQUEST};
use crate::queue::CAPACITY;
use crate::random::Random;
use crate::state::FIRST_PLACE;

/// The first place that there is not, and one far past it.
const BEYOND: u32 = CAPACITY as u32;
const FAR: u32 = 1 << 31;

/// A kind of place: its name, and whether a place is one where so many requests wait.
type Kind = (&'static str, fn(u32, u32) -> bool);

/// Places where a request waits.
const TAKEN: [Kind; 5] = [
    ("the first", |place, _| place == 0),
    ("the second", |place, _| place == 1),
    ("one between", |place, count| 0 < place && place + 1 < count),
    ("the last taken", |place, count| place + 1 == count),
    ("the last of all", |place, _| place + 1 == BEYOND),
];

/// Places where none does.
const FREE: [Kind; 7] = [
    ("the first", |place, _| place == 0),
    ("the second", |place, _| place == 1),
    ("the first free", |place, count| place == count),
    ("the second free", |place, count| place == count + 1),
    ("the last of all", |place, _| place + 1 == BEYOND),
    ("one beyond", |place, _| place == BEYOND),
    ("a far place", |place, _| place >= FAR),
];

/// The numbers of all kinds of open pair, where so many requests wait.
pub fn open_pairs(count: u32) -> Vec<u32> {
    let about = [count.saturating_sub(1), count, count.saturating_add(1)];
    let fixed = [0, 1, BEYOND - 1, BEYOND, FAR, u32::MAX];
    let places = [&about[..], &fixed].concat();
    let requests = places.into_iter().map(|p| p.saturating_add(FIRST_PLACE));
    (0..FIRST_PLACE).chain(requests).collect()
}

/// The number of an open pair at random, often of none or of the oldest request.
pub fn some_open_pair(random: &Random, count: u32) -> u32 {
    match random.below(4) {
        0 | 1 => random.pick(&[0, 0, 0, 1, 2, 3, FIRST_PLACE]),
        2 => FIRST_PLACE + random.below(BEYOND + 1),
        _ => random.pick(&open_pairs(count)),
    }
}

/// The name of a call on a state whose open pair is of the request at such a place.
fn met(call: &str, taken: bool, kind: &Kind) -> String {
    let answer = if taken { "open" } else { "19 for" };
    format!("{call}: {answer} the request at {}", kind.0)
}

/// Counts a call on a state of an accepted sheet with these grounds of 19: none, or the place alone.
pub fn count(
    coverage: &mut Coverage,
    call: &str,
    controller: &Controller<Both>,
    grounds: &[Ground],
) {
    let Some(Opened::Waiting(place)) = controller.opened else {
        return;
    };
    let (taken, kinds) = match grounds {
        [] => (true, &TAKEN[..]),
        [NO_REQUEST] => (false, &FREE[..]),
        _ => return,
    };
    for kind in kinds {
        if kind.1(place, controller.queue.count) {
            coverage.meet(&met(call, taken, kind));
        }
    }
}

/// What must be met of a call.
pub fn promised(call: &str) -> Vec<String> {
    let taken = TAKEN.iter().map(|kind| met(call, true, kind));
    let free = FREE.iter().map(|kind| met(call, false, kind));
    taken.chain(free).collect()
}
