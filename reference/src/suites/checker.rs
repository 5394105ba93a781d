//! The examiner, step by step, whole and as a walk, and the counts: codes 2, 3, 8 and 10.

use super::{breaches, by_hand, data, long, names, near, pool, refusals, runs, sheets, tally};
use crate::coverage::Coverage;
use crate::judge::{check, Verdict};
use crate::past::Past;
use crate::random::Random;
use crate::script::{Call, Packer};
use crate::sheet::Sheet;
use crate::summary::Summary;
use crate::wiring::WIRINGS;
use crate::word::{DESL, PD};

/// The longest trace whose calls go into one script, which has its words four times, and its steps.
const IN_ONE_SCRIPT: usize = 3_000;

/// What this suite must meet.
pub fn promised() -> Vec<String> {
    let mut promised = [
        breaches(&[2, 3, 10]),
        refusals(2, "refused"),
        refusals(3, "refused"),
        refusals(8, "refused"),
        refusals(10, "refused"),
        names(2, &["pass", "refused 23", "refused 24"]),
        names(3, &["accepted"]),
        names(8, &["counts"]),
        names(10, &["end", "refused 23"]),
    ]
    .concat();
    promised.push("walk over an unfinished pair".to_string());
    promised.extend(near::promised());
    promised.extend(tally::promised());
    promised.extend(data::promised_of_tallies());
    promised.extend(sheets::promised_order());
    promised.extend(pool::parts().iter().flat_map(by_hand::promised));
    promised.extend(WIRINGS.map(runs::promised).concat());
    promised
}

/// All cases of the suite.
pub fn cases(seed: u64, scale: u32, packer: &mut Packer, coverage: &mut Coverage) {
    let random = Random::new(seed);
    unfit_sheets(&random, packer);
    for sheet in pool::parts() {
        let mut judged = |coverage: &mut Coverage, words: &[u32]| {
            judged(&random, packer, coverage, &sheet, words)
        };
        by_hand::each(&random, &sheet, coverage, &mut judged);
    }
    for sheet in runs::sheets(&random) {
        runs::each(&random, &sheet, coverage, &mut |coverage, words| {
            judged(&random, packer, coverage, &sheet, words)
        });
    }
    for round in 0..scale {
        near::round(&random, round, coverage, &mut |coverage, sheet, words| {
            judged(&random, packer, coverage, sheet, words)
        });
    }
    for _ in 0..1000 * scale {
        let sheet = pool::sheet(&random);
        let words = near::random_words(&random);
        judged(&random, packer, coverage, &sheet, &words);
        judged(&random, packer, coverage, &sheet, &[]);
    }
    tally::cases(&random, scale, packer, coverage);
    for _ in 0..4 * scale {
        long::dense(&random, packer);
    }
    long::last_clock(&random, packer);
}

/// Counts what a trace breaks, and has it judged step by step, whole and by a walk, and counted. A
/// second walk goes over its beginning.
fn judged(
    random: &Random,
    packer: &mut Packer,
    coverage: &mut Coverage,
    sheet: &Sheet,
    words: &[u32],
) {
    near::count_broken(coverage, sheet, words);
    if words.len() > IN_ONE_SCRIPT {
        return judged_apart(random, packer, sheet, words);
    }
    let mut calls = stepped(random, sheet, words);
    calls.push(Call::Check(words.to_vec()));
    calls.push(Call::Count(words.to_vec()));
    calls.push(Call::Walk(words.to_vec()));
    let beginning = &words[..random.below(words.len() as u32 + 1) as usize];
    if check::<Summary>(sheet, beginning) == Ok(Verdict::Accepted) && unfinished(sheet, beginning) {
        coverage.meet("walk over an unfinished pair");
    }
    calls.push(Call::Walk(beginning.to_vec()));
    packer.group(&calls);
}

/// Has a long trace judged step by step, whole and by a walk, each in a group of its own.
fn judged_apart(random: &Random, packer: &mut Packer, sheet: &Sheet, words: &[u32]) {
    packer.group(&stepped(random, sheet, words));
    for call in [Call::Check, Call::Walk] {
        packer.group(&[pool::config(random, sheet), call(words.to_vec())]);
    }
}

/// A trace stepped over on a sheet, and what the checker says after it.
fn stepped(random: &Random, sheet: &Sheet, words: &[u32]) -> Vec<Call> {
    let mut calls = vec![pool::config(random, sheet)];
    calls.extend(steps(words));
    calls.push(Call::Step {
        count: 2,
        word: DESL,
    });
    calls.push(Call::Step { count: 0, word: 0 });
    calls
}

/// Whether a trace ends with a pair open.
fn unfinished(sheet: &Sheet, words: &[u32]) -> bool {
    let mut past = Summary::fresh();
    words.iter().for_each(|&word| past.push(sheet, word));
    past.pair_open()
}

/// A trace as steps, equal words that stand together in one call.
pub fn steps(words: &[u32]) -> Vec<Call> {
    let runs = words.chunk_by(|a, b| a == b);
    let step = |run: &[u32]| Call::Step {
        count: run.len() as u32,
        word: run[0],
    };
    runs.map(step).collect()
}

/// Sheets that are refused, before anything else is looked at.
fn unfit_sheets(random: &Random, packer: &mut Packer) {
    for sheet in sheets::refused() {
        packer.group(&[
            pool::config(random, &sheet),
            Call::Step {
                count: 3,
                word: random.pick(&[0, DESL]),
            },
            Call::Step { count: 0, word: 0 },
            Call::Check(vec![]),
            Call::Check(vec![random.pick(&[0, DESL])]),
            Call::Count(vec![DESL, PD, PD]),
            Call::Walk(vec![]),
            Call::Walk(vec![random.pick(&[0, DESL])]),
        ]);
    }
}
