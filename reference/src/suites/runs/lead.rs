//! What stands before a run, so that the run starts where it is to start.

use super::{add_run, Run};
use crate::pair::Kind;
use crate::random::Random;
use crate::sheet::Sheet;
use crate::suites::sleep::{desl_word, low_word};
use crate::suites::trace::Trace;
use crate::word::CS;

/// A trace up to a run of so many words, whose last word is so many clocks before the last one that rule
/// 3 allows.
pub fn trace(
    random: &Random,
    sheet: &Sheet,
    (run, length): (Run, u32),
    limit: Option<i32>,
) -> Trace {
    let mut trace = Trace::new(*sheet);
    match limit {
        Some(clocks) => up_to_the_limit(&mut trace, random, (run, length), clocks),
        None => freely(&mut trace, random),
    }
    if run == Run::Low {
        let low = trace
            .earliest(&[CS])
            .expect("a clock at which PD may go low");
        trace.idle_until(low);
    }
    trace
}

/// Nothing, a few words, or a start-up with a read or write behind it.
fn freely(trace: &mut Trace, random: &Random) {
    let words = match random.below(4) {
        0 => return,
        1 => {
            trace.make_ready(random);
            let kind = random.pick(&[Kind::Read, Kind::Write]);
            trace.words_of(random, kind, random.below(8)).to_vec()
        }
        _ => before_desl(trace, random),
    };
    trace.idle_until(trace.clock() + random.below(8));
    trace.add(&words);
}

/// A refresh, and all words up to the run. A sleep follows on DESL.
fn up_to_the_limit(trace: &mut Trace, random: &Random, (run, length): (Run, u32), clocks: i32) {
    refresh(trace, random);
    let limit = trace.refresh_limit().expect("a REF word") as i32;
    let start = (limit - clocks) as u32 + 1 - length;
    let words = match run {
        Run::Low => Vec::new(),
        _ => before_desl(trace, random),
    };
    trace.idle_until(start - words.len() as u32);
    trace.add(&words);
}

/// Words behind which a run of DESL starts: a short sleep with its wake-up words, or a mode.
fn before_desl(trace: &Trace, random: &Random) -> Vec<u32> {
    let mode = random.pick(&[Kind::Regular, Kind::Extended]);
    match random.once_in(2) {
        true => vec![low_word(random), desl_word(random), desl_word(random)],
        false => trace.words_of(random, mode, 0).to_vec(),
    }
}

/// A refresh at one of the first clocks.
fn refresh(trace: &mut Trace, random: &Random) {
    trace.idle_until(random.below(8));
    trace.add(&trace.words_of(random, Kind::Refresh, 0));
}

/// A refresh, a run of DESL, and behind it PD low or another refresh.
pub fn within_refc(random: &Random, sheet: &Sheet, length: u32, low: bool) -> Vec<u32> {
    let mut trace = Trace::new(*sheet);
    refresh(&mut trace, random);
    add_run(&mut trace, random, Run::Varied, length);
    match low {
        true => trace.word(low_word(random)),
        false => trace.add(&trace.words_of(random, Kind::Refresh, 0)),
    }
    trace.words
}
