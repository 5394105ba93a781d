//! Calls before and behind a check within limits, which leaves the configuration, the checker and the
//! controller as they are, and goes by the configuration alone.

use super::draw::{inside, some_limits};
use crate::coverage::Coverage;
use crate::limits::{check_within, Limits};
use crate::random::Random;
use crate::script::{Call, Packer};
use crate::suites::held::{self, moves, name, MOVED, PUT, SHOWN};
use crate::suites::near::near_words;
use crate::suites::{pool, sheets};
use crate::summary::Summary;

/// The longest trace of these.
const WORDS: usize = 1_500;

/// What the cases must meet.
pub fn promised() -> Vec<String> {
    let mut promised = Vec::new();
    for state in [MOVED, PUT] {
        promised.extend(["always", "breach", "refused"].map(|answer| name(state, answer)));
    }
    promised
}

/// All cases.
pub fn each(random: &Random, rounds: u32, packer: &mut Packer, coverage: &mut Coverage) {
    for round in 0..rounds {
        let mut limits = some_limits(random);
        let sheet = inside(random, &limits);
        let mut words = near_words(random, &mut Coverage::default(), sheet, round);
        words.truncate(WORDS);
        match random.below(9) {
            0 => limits.greatest = random.pick(&sheets::refused()),
            1 => limits.least = random.pick(&sheets::refused()),
            2 => limits.greatest = pool::sheet(random),
            _ => {}
        }
        let state = random.pick(&[MOVED, PUT]);
        let answer = match check_within::<Summary>(limits.least, limits.greatest, &words) {
            Ok(None) => "always",
            Ok(Some(_)) => "breach",
            Err(_) => "refused",
        };
        coverage.meet(&name(state, answer));
        packer.group(&calls(random, &limits, &words, state));
    }
}

/// A state, shown before and behind the check; further calls on all that is held; and the check again.
fn calls(random: &Random, limits: &Limits, words: &[u32], state: &str) -> Vec<Call> {
    let before = held::state(random, &limits.least, state);
    let within = || Call::CheckWithin(limits.greatest.numbers(), words.to_vec());
    [
        &[pool::config(random, &limits.least)][..],
        &before,
        &SHOWN,
        &[within()],
        &SHOWN,
        &moves(random, &limits.least),
        &SHOWN,
        &[Call::Check(words.to_vec()), within()],
    ]
    .concat()
}
