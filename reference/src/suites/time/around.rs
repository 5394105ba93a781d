//! Calls before and behind a length in time, which leaves the configuration, the checker and the
//! controller as they are, and goes by the configuration alone.

use super::counts::some_count;
use crate::coverage::Coverage;
use crate::random::Random;
use crate::script::{Call, Packer};
use crate::sheet::Sheet;
use crate::suites::held::{self, moves, name, MOVED, PUT, SHOWN};
use crate::suites::near::near_words;
use crate::suites::{pool, sheets};
use crate::time::length;

/// The answers, by what gives them.
const TIME: &str = "time";
const OF_SHEET: &str = "refused for the sheet";
const OF_COUNT: &str = "refused 32";

/// The longest trace of these.
const WORDS: usize = 1_500;

/// What the cases must meet.
pub fn promised() -> Vec<String> {
    let of = |state| [TIME, OF_SHEET, OF_COUNT].map(|answer| name(state, answer));
    [MOVED, PUT].map(of).concat()
}

/// All cases.
pub fn each(random: &Random, rounds: u32, packer: &mut Packer, coverage: &mut Coverage) {
    for round in 0..rounds {
        let fit = pool::sheet(random);
        let mut words = near_words(random, &mut Coverage::default(), fit, round);
        words.truncate(WORDS);
        let sheet = match random.once_in(4) {
            true => random.pick(&sheets::refused()),
            false => fit,
        };
        let (state, count) = (random.pick(&[MOVED, PUT]), some_count(random));
        let answer = match length(&sheet, count.into()) {
            Ok(_) => TIME,
            Err(32) => OF_COUNT,
            Err(_) => OF_SHEET,
        };
        coverage.meet(&name(state, answer));
        packer.group(&calls(random, &sheet, count, &words, state));
    }
}

/// A state, shown before and behind the call; the call for another count; further calls on all that is
/// held, the whole check on the configuration, and the call again.
fn calls(random: &Random, sheet: &Sheet, count: u32, words: &[u32], state: &str) -> Vec<Call> {
    [
        &[pool::config(random, sheet)][..],
        &held::state(random, sheet, state),
        &SHOWN,
        &[Call::Time(count)],
        &SHOWN,
        &[Call::Time(some_count(random))],
        &moves(random, sheet),
        &SHOWN,
        &[Call::Check(words.to_vec()), Call::Time(count)],
    ]
    .concat()
}
