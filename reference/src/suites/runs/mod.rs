//! Runs of DESL and of low words about as long as the blocks in which a check may pass over them: traces
//! whose verdicts the papers give, decided at the end of a run or next to it.

mod endings;
mod lead;

use super::by_hand::{hand_on, met, Judged};
use super::pool;
use super::sleep::{low_word, BELOW_PD};
use super::trace::Trace;
use crate::coverage::Coverage;
use crate::random::Random;
use crate::sheet::{Sheet, SHEET_E, SHEET_E_OF_FOUR};
use crate::word::DESL;
use endings::{behind_desl, behind_sleep, Ending};
use std::ops::RangeInclusive;

/// The lengths of the runs: from one word less than a block of eight to some more than three blocks, so that
/// a run ends at every place in a block, however many words before the blocks are taken one by one.
const LENGTHS: RangeInclusive<u32> = 7..=26;

/// The words that a run is of.
#[derive(Clone, Copy, PartialEq)]
enum Run {
    /// DESL as it is written.
    Desl,
    /// DESL with ignored pins at random, another word at each clock.
    Varied,
    /// A sleep: one word that goes low, and behind it any words with PD low.
    Low,
}

const RUNS: [(Run, &str); 3] = [
    (Run::Desl, "a run of DESL"),
    (Run::Varied, "a run of DESL with ignored pins high"),
    (Run::Low, "a sleep"),
];

/// Each trace in breach comes once more with so many words behind it as fill the block that it ends in.
const BEHIND: u32 = 64;
const WITH_WORDS_BEHIND: &str = "a run and a breach with words behind it";

/// The cases in which a refresh stands before the run, and behind it, within REFC or not, what may stand
/// only after that; with the breach.
const WITHIN_REFC: [(&str, u32); 2] = [
    ("a refresh, a run of DESL and PD low", 2),
    ("a refresh, a run of DESL and another refresh", 10),
];

/// What the cases on sheet E with a wiring must meet.
pub fn promised(wiring: u32) -> Vec<String> {
    let mut promised = Vec::new();
    for (name, breach) in WITHIN_REFC {
        promised.push(met(name, None, wiring));
        promised.push(met(name, Some(breach), wiring));
    }
    for (run, of) in RUNS {
        let endings = endings(&Random::new(0), run).into_iter();
        promised.extend(endings.map(|e| met(&then(of, e.name), e.breach, wiring)));
    }
    promised.push(WITH_WORDS_BEHIND.to_string());
    promised.extend(LENGTHS.map(of_length));
    promised.extend((0..8).map(from_clock));
    promised
}

/// The name of a run with what stands behind it.
fn then(run: &str, ending: &str) -> String {
    format!("{run}, then {ending}")
}

/// The name of a run's length.
fn of_length(length: u32) -> String {
    format!("a run of {length} words")
}

/// The name of where a run starts.
fn from_clock(clock: u32) -> String {
    format!("a run from clock {} modulo 8 on", clock % 8)
}

/// The sheets that the cases are for: E with each wiring, and one at random.
pub fn sheets(random: &Random) -> [Sheet; 3] {
    [SHEET_E, SHEET_E_OF_FOUR, pool::sheet(random)]
}

/// All cases on a sheet, each handed to `judged`.
pub fn each(random: &Random, sheet: &Sheet, coverage: &mut Coverage, judged: &mut Judged) {
    for length in LENGTHS {
        for (run, of) in RUNS {
            for ending in endings(random, run) {
                let mut trace = lead::trace(random, sheet, (run, length), ending.limit);
                coverage.meet(&of_length(length));
                coverage.meet(&from_clock(trace.clock()));
                add_run(&mut trace, random, run, length);
                trace.add(&ending.words);
                let name = then(of, ending.name);
                let case = (&name[..], ending.breach, &trace.words[..]);
                hand_on(sheet, case, coverage, judged);
                if ending.breach.is_some() {
                    add_run(&mut trace, random, run, BEHIND);
                    coverage.meet(WITH_WORDS_BEHIND);
                    judged(coverage, &trace.words);
                }
            }
        }
        for (low, (name, breach)) in [true, false].into_iter().zip(WITHIN_REFC) {
            let words = lead::within_refc(random, sheet, length, low);
            let breach = (2 + length < sheet.refc).then_some(breach);
            hand_on(sheet, (name, breach, &words), coverage, judged);
        }
    }
}

/// All that can stand behind a run.
fn endings(random: &Random, run: Run) -> Vec<Ending> {
    match run {
        Run::Low => behind_sleep(random),
        _ => behind_desl(random),
    }
}

/// Adds the words of a run.
fn add_run(trace: &mut Trace, random: &Random, run: Run, length: u32) {
    for place in 0..length {
        trace.word(match run {
            Run::Desl => DESL,
            Run::Varied => DESL | (random.bits() & BELOW_PD),
            Run::Low if place == 0 => low_word(random),
            Run::Low => random.bits() & BELOW_PD,
        });
    }
}
