//! Traces on a sheet and on one that relaxes it, which has other counts, none of them larger, and maybe
//! another grade: what the first accepts, the second accepts. Codes 2, 3 and 10.

mod conditions;
pub(super) mod edges;
mod meet;
mod order;
mod sentence;
pub(super) mod two_sheets;

use super::checker::steps;
use super::long::dense_words;
use super::near::{near_words_on, random_words};
use super::{breaches, pool};
use crate::coverage::Coverage;
use crate::random::Random;
use crate::script::{Call, Packer};
use crate::sheet::Sheet;
pub use sentence::check;
pub use two_sheets::{relaxes, some_sheets};

/// The longest trace that is stepped and walked over too, and the longest that is checked whole: a
/// script has the calls on three sheets.
const STEPPED: usize = 2_000;
const WHOLE: usize = 5_000;

/// The words of a trace of accesses as close as allowed, and of a long one.
const DENSE: usize = 250;
const LONG: usize = 4_000;

/// What this suite must meet.
pub fn promised() -> Vec<String> {
    [
        breaches(&[2, 3, 10]),
        conditions::promised(),
        edges::promised(),
        meet::promised(),
        sentence::promised(),
    ]
    .concat()
}

/// All cases of the suite.
pub fn cases(seed: u64, scale: u32, packer: &mut Packer, coverage: &mut Coverage) {
    let random = Random::new(seed);
    for part in pool::parts() {
        let mut judged = |sheets: [Sheet; 2], words: &[u32]| judged(&random, packer, sheets, words);
        edges::each(&random, &part, coverage, &mut judged);
        conditions::each(&random, &part, coverage, &mut judged);
        order::each(&random, &part, &mut |sheets, words| {
            meet::count(coverage, sheets, words);
            judged(sheets, words);
        });
    }
    for number in 0..2_000 * scale {
        let sheets = some_sheets(&random);
        for words in traces(&random, sheets, number) {
            meet::count(coverage, sheets, &words);
            judged(&random, packer, sheets, &words);
        }
    }
}

/// Traces near the rules of the first sheet, of the second, and of the second behind a start-up near
/// those of the first; accesses as soon as the second allows; words at random; and seldom thousands of
/// accesses as soon as the first allows.
fn traces(random: &Random, sheets: [Sheet; 2], number: u32) -> Vec<Vec<u32>> {
    let [stricter, relaxed] = sheets;
    assert!(relaxes(&stricter, &relaxed), "{sheets:?}");
    let mut traces = Vec::new();
    for (on, way) in [[stricter; 2], [relaxed; 2], sheets].into_iter().zip(0..) {
        let way = 3 * number + way;
        traces.push(near_words_on(random, &mut Coverage::default(), on, way));
    }
    traces.push(dense_words(random, &relaxed, DENSE));
    traces.push(random_words(random));
    if number.is_multiple_of(500) {
        traces.push(dense_words(random, &stricter, LONG));
    }
    traces
}

/// Has a trace judged on both sheets, and on the first again.
fn judged(random: &Random, packer: &mut Packer, [first, second]: [Sheet; 2], words: &[u32]) {
    let calls = calls(random, words);
    let on = |sheet| [&[pool::config(random, &sheet)], &calls[..]].concat();
    packer.group(&[first, second, first].map(on).concat());
}

/// The calls that judge a trace: whole, and at times by steps and by a walk too; a long one by steps.
fn calls(random: &Random, words: &[u32]) -> Vec<Call> {
    if words.len() > WHOLE {
        return steps(words);
    }
    let mut calls = vec![Call::Check(words.to_vec())];
    if words.len() <= STEPPED && random.once_in(8) {
        calls.extend(steps(words));
        calls.push(Call::Walk(words.to_vec()));
    }
    calls
}
