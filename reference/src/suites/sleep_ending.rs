//! The ways in which a trace ends about a power down, each near some edge of rules 2, 3 and 13.

use super::ending::by_one_clock;
use super::sleep::{desl_word, low_word, BELOW_PD};
use super::trace::{some_kind, Trace};
use crate::coverage::Coverage;
use crate::random::Random;
use crate::word::CS;

/// The number of ways that take no long wait.
pub const WAYS: u32 = 4;

/// Ends a trace in one of these ways.
pub fn end_soon(way: u32, trace: &mut Trace, random: &Random, coverage: &mut Coverage) {
    match way {
        0 => low_one_clock_early(trace, random, coverage),
        1 => low_and_wrong(trace, random, coverage),
        2 => sleep_on(trace, random, coverage),
        _ => wake_up(trace, random, coverage),
    }
}

/// A stray bit, once in so many times.
fn stray(random: &Random, once_in: u32) -> u32 {
    match random.once_in(once_in) {
        true => 1 << random.between(20, 31),
        false => 0,
    }
}

/// PD goes low one clock before it may, after a pair or another sleep.
fn low_one_clock_early(trace: &mut Trace, random: &Random, coverage: &mut Coverage) {
    if random.once_in(4) {
        trace.power_down(random, coverage);
        trace.idle_until(trace.clock() + random.below(2));
    } else {
        trace.put_kind(random, some_kind(random), coverage);
    }
    let low = [low_word(random)];
    if let Some(clock) = trace.earliest(&low).filter(|&c| c > trace.clock()) {
        trace.idle_until(clock - 1);
        by_one_clock(trace, &low, coverage);
    }
    trace.add(&low);
    trace.stay_low(random, trace.clock() + random.below(4));
}

/// PD goes low in place of a closing word, with CS low, or at any clock before it may.
fn low_and_wrong(trace: &mut Trace, random: &Random, coverage: &mut Coverage) {
    let mut low = low_word(random) | stray(random, 8);
    let first = trace.words_of(random, some_kind(random), random.below(8))[0];
    let way = random.below(3);
    if way == 2 || random.once_in(3) {
        trace.put_kind(random, some_kind(random), coverage);
    }
    if let Some(clock) = trace.earliest(&[CS]) {
        let early = if way == 2 { random.below(20) } else { 0 };
        trace.idle_until(clock.saturating_sub(early));
    }
    match way {
        0 => trace.word(first & !CS),
        1 => low &= !CS,
        _ => {}
    }
    trace.word(low);
    trace.stay_low(random, trace.clock() + random.below(4));
}

/// PD stays low, at times with a stray bit on the way.
fn sleep_on(trace: &mut Trace, random: &Random, coverage: &mut Coverage) {
    if !trace.go_low(random, coverage) {
        return;
    }
    trace.stay_low(random, trace.clock() + random.below(6));
    trace.word((random.bits() & BELOW_PD) | stray(random, 3));
    trace.stay_low(random, trace.clock() + random.below(3));
}

/// A pair in the first or in the second wake-up word, or behind them; or PD low again in the second; at
/// times with a stray bit.
fn wake_up(trace: &mut Trace, random: &Random, coverage: &mut Coverage) {
    if !trace.go_low(random, coverage) {
        return;
    }
    trace.stay_low(random, trace.clock() + random.below(6));
    let awake = random.below(4);
    for _ in 0..awake {
        trace.word(desl_word(random));
    }
    let words = trace.words_of(random, some_kind(random), random.below(8));
    if awake == 1 && random.once_in(3) {
        return trace.add(&[low_word(random) | stray(random, 4)]);
    }
    if awake == 1 {
        by_one_clock(trace, &words, coverage);
    }
    trace.add(&[words[0] | stray(random, 6), words[1]]);
}

/// The first clock that rule 3 does not allow: PD stays low through it, or goes low there, or has come up
/// before it.
pub fn overdue(trace: &mut Trace, random: &Random, coverage: &mut Coverage) {
    let Some(limit) = trace.refresh_limit() else {
        return trace.power_down(random, coverage);
    };
    match random.below(4) {
        0 => overdue_going_low(trace, random, limit),
        1 => overdue_waking(trace, random, limit, coverage),
        _ => {
            trace.go_low(random, coverage);
            trace.stay_low(random, limit + random.below(3));
            trace.word((random.bits() & BELOW_PD) | stray(random, 4));
        }
    }
}

/// PD goes low at the first clock that is too late, at times after a pair that does not permit it, or with
/// CS low.
fn overdue_going_low(trace: &mut Trace, random: &Random, limit: u32) {
    trace.idle_until(limit - random.between(2, 12));
    if random.once_in(2) {
        let words = trace.words_of(random, some_kind(random), random.below(8));
        trace.add(&words);
    }
    trace.idle_until(limit + 1);
    let low = low_word(random) & !random.pick(&[0, 0, CS]);
    trace.word(low | stray(random, 8));
}

/// A pair at the first clock that is too late, which may be that of a wake-up word.
fn overdue_waking(trace: &mut Trace, random: &Random, limit: u32, coverage: &mut Coverage) {
    trace.go_low(random, coverage);
    trace.stay_low(random, limit + 1 - random.below(3));
    trace.idle_until(limit + 1);
    let words = trace.words_of(random, some_kind(random), random.below(8));
    trace.add(&[words[0] | stray(random, 4), words[1]]);
}
