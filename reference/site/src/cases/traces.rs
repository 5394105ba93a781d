//! Traces near the edges of the rules on many sheets, words at random, dense and damaged traces.

use crate::call::Form;
use crate::run::{fail, Run};
use reference::both::Both;
use reference::coverage::Coverage;
use reference::hand_in::site_number;
use reference::random::Random;
use reference::script::bytes;
use reference::sheet::Sheet;
use reference::suites::{by_hand, load, long, near, pool, runs};
use std::thread;

pub fn cases(run: &mut Run, scale: u32) {
    let random = Random::new(run.random.next64());
    for round in 0..4 * scale {
        let mut coverage = std::mem::take(&mut run.coverage);
        near::round(
            &random,
            round,
            &mut coverage,
            &mut |coverage, sheet, words| {
                near::count_broken(coverage, sheet, words);
                judged(run, &random, sheet, words);
            },
        );
        run.coverage.add(coverage);
    }
    for sheet in pool::parts() {
        let mut coverage = std::mem::take(&mut run.coverage);
        let mut judged = |_: &mut Coverage, words: &[u32]| judged(run, &random, &sheet, words);
        by_hand::each(&random, &sheet, &mut coverage, &mut judged);
        run.coverage.add(coverage);
    }
    for sheet in runs::sheets(&random) {
        let mut coverage = std::mem::take(&mut run.coverage);
        runs::each(&random, &sheet, &mut coverage, &mut |_, words| {
            judged(run, &random, &sheet, words)
        });
        run.coverage.add(coverage);
    }
    for _ in 0..4_000 * scale {
        let sheet = pool::sheet(&random);
        judged(run, &random, &sheet, &near::random_words(&random));
    }
    for _ in 0..12 * scale {
        dense(run, &random);
    }
}

/// A trace, and at times the same with bytes lost at its end or other upper halves of the numbers.
fn judged(run: &mut Run, random: &Random, sheet: &Sheet, words: &[u32]) {
    let trace = bytes(words);
    run.short(sheet, &trace);
    if random.once_in(4) && !trace.is_empty() {
        run.short(sheet, &trace[..trace.len() - random.between(1, 3) as usize]);
    }
    if random.once_in(4) {
        run.dirty(sheet, &trace, random.bits());
    }
}

/// A trace of thousands of pairs, or one with sleeps between them, then the same damaged in some place.
fn dense(run: &mut Run, random: &Random) {
    let sheet = long::quick_sheet(random);
    let words = match random.once_in(2) {
        true => long::dense_words(random, &sheet, 8_000),
        false => load::sleeping(random, &sheet, 8_000),
    };
    run.short(&sheet, &bytes(&words));
    for _ in 0..8 {
        let mut damaged = words.clone();
        let place = random.below(words.len() as u32) as usize;
        damaged[place] ^= 1 << random.below(20);
        run.short(&sheet, &bytes(&damaged));
    }
}

/// Traces checked by two threads at once, in opposite order, against answers found before.
pub fn threads(run: &mut Run, scale: u32) {
    let random = Random::new(run.random.next64());
    let mut cases = Vec::new();
    for way in 0..2_000 * scale {
        let sheet = pool::sheet(&random);
        let trace = bytes(&near::near_words(&random, &mut run.coverage, sheet, way));
        let wanted = site_number::<Both>(&sheet, &trace);
        cases.push((sheet, trace, wanted));
    }
    let check = |(sheet, trace, wanted): &(Sheet, Vec<u8>, u32)| {
        for form in Form::of(sheet) {
            let got = form.check(sheet, trace);
            if got != *wanted {
                let with = "by two threads at once";
                fail(sheet, trace, &wanted.to_string(), &format!("{got} {with}"));
            }
        }
    };
    thread::scope(|scope| {
        scope.spawn(|| (0..20).for_each(|_| cases.iter().for_each(check)));
        scope.spawn(|| (0..20).for_each(|_| cases.iter().rev().for_each(check)));
    });
    let calls: usize = cases.iter().map(|case| Form::of(&case.0).len()).sum();
    run.calls += 40 * calls as u64;
    run.coverage.meet("calls from two threads at once");
}
