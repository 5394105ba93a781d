//! Traces on every sheet in limits: code 15.

mod around;
mod case;
mod counts;
mod draw;
mod meet;
mod periods;
pub mod refused;

use super::long::{dense_words, quick_sheet};
use super::near::{near_words, near_words_on, random_words};
use super::{breaches, names, pool};
use crate::coverage::Coverage;
use crate::limits::Limits;
use crate::random::Random;
use crate::script::{Call, Packer};
use crate::sheet::Sheet;
use crate::word::DESL;
pub use case::Case;
pub use draw::{about, some_limits};
use draw::{inside, some_place};

/// The words of a trace of accesses as close as allowed, and of a long one.
const DENSE: usize = 250;
const LONG: usize = 6_000;

/// What this suite must meet.
pub fn promised() -> Vec<String> {
    [
        names(15, &["always"]),
        breaches(&[15]),
        promised_directed(),
        meet::promised(),
        refused::promised(),
        around::promised(),
    ]
    .concat()
}

/// All cases of the suite.
pub fn cases(seed: u64, scale: u32, packer: &mut Packer, coverage: &mut Coverage) {
    let random = Random::new(seed);
    refused::each(&random, scale, coverage, &mut |limits| {
        packer.group(&calls(&random, limits, some_words(&random)));
    });
    around::each(&random, 300 * scale, packer, coverage);
    let mut judged = |limits: &Limits, words: &[u32]| {
        meet::count(coverage, limits, words);
        packer.group(&calls(&random, limits, words));
    };
    for number in 0..1_500 * scale {
        let limits = some_limits(&random);
        for words in traces(&random, &limits, number) {
            judged(&limits, &words);
        }
    }
    for number in 0..1_000 * scale {
        let limits = about(&random, pool::sheet(&random), &[]);
        let coverage = &mut Coverage::default();
        judged(
            &limits,
            &near_words(&random, coverage, limits.least, number),
        );
    }
    for _ in 0..4 * scale {
        long(&random, &mut judged);
    }
    for part in pool::parts() {
        for case in directed(&random, &part) {
            case.settle(&random, coverage);
            meet::count(coverage, &case.limits, &case.words);
            packer.group(&calls(&random, &case.limits, &case.words));
        }
    }
}

/// What the cases with the papers' verdicts must meet.
pub fn promised_directed() -> Vec<String> {
    [counts::promised(), periods::promised()].concat()
}

/// The cases with the papers' verdicts on a part.
pub fn directed(random: &Random, part: &Sheet) -> Vec<Case> {
    let mut cases = counts::each(random, part);
    cases.extend(periods::each(random, part));
    cases
}

/// Few words, for limits that may be refused.
pub fn some_words(random: &Random) -> &'static [u32] {
    random.pick(&[&[][..], &[DESL], &[0], &[DESL; 20]])
}

/// A check within limits from the configuration on, and at times the whole check on that, before or behind.
fn calls(random: &Random, limits: &Limits, words: &[u32]) -> Vec<Call> {
    let within = Call::CheckWithin(limits.greatest.numbers(), words.to_vec());
    let mut calls = vec![pool::config(random, &limits.least), within];
    if words.len() < LONG && random.once_in(3) {
        let place = random.between(1, 2) as usize;
        calls.insert(place, Call::Check(words.to_vec()));
    }
    calls
}

/// Traces near the rules of a sheet that no other in the limits has larger counts than, and of others;
/// accesses as soon as one of the sheets allows; words at random; and none.
pub fn traces(random: &Random, limits: &Limits, number: u32) -> Vec<Vec<u32>> {
    let [first, second] = [(); 2].map(|()| inside(random, limits));
    let strict = Sheet {
        period: first.period,
        ..limits.greatest
    };
    let coverage = &mut Coverage::default();
    vec![
        near_words(random, coverage, strict, 2 * number),
        near_words_on(random, coverage, [first, second], 2 * number + 1),
        dense_words(random, &random.pick(&[strict, second]), DENSE),
        random_words(random),
        vec![],
    ]
}

/// Thousands of words in limits with few corners, and again with one of the last words spoilt.
fn long(random: &Random, judged: &mut dyn FnMut(&Limits, &[u32])) {
    let places = [some_place(random), some_place(random)];
    let limits = about(random, quick_sheet(random), &places);
    let mut words = dense_words(random, &limits.greatest, LONG);
    judged(&limits, &words);
    let spoilt = words.len() - 1 - random.below(40) as usize;
    words[spoilt] ^= 1 << random.below(20);
    judged(&limits, &words);
}
