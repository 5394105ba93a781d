//! The ways in which a trace of the checker's suite ends, each near some edge of the rules.

use super::damage::damage;
use super::sleep_ending;
use super::trace::{meet_edges, some_kind, Trace};
use crate::coverage::Coverage;
use crate::pair::Kind;
use crate::random::Random;
use crate::word::{a, BA0, BA1, BA2, CS, PD};

/// The ways are taken in turn. Four of them wait until a refresh is due and make long traces; each of the
/// others comes three times.
const LONG: u32 = 4;
const SOON: u32 = 9 + sleep_ending::WAYS;
const TURNS: u32 = LONG + 3 * SOON;

/// The most refreshes in a bunch.
const BUNCH: u32 = 10;

/// Ends a trace in the way whose turn it is.
pub fn end(turn: u32, trace: &mut Trace, random: &Random, coverage: &mut Coverage) {
    match turn % TURNS {
        0 => refresh_at_the_last_clock(trace, random, coverage),
        1 => overdue_pair(trace, random, coverage),
        2 => {
            let count = turn / TURNS % BUNCH + 1;
            pause_after_a_bunch(trace, random, count as usize, coverage);
        }
        3 => sleep_ending::overdue(trace, random, coverage),
        other => end_soon(other % SOON, trace, random, coverage),
    }
}

/// Ends a trace in one of the ways that take no long wait.
fn end_soon(way: u32, trace: &mut Trace, random: &Random, coverage: &mut Coverage) {
    match way {
        0 => trace.idle_until(trace.clock() + random.below(30)),
        1 => one_clock_early(trace, random, coverage),
        2 => early_and_wrong(trace, random),
        3 => nine_refreshes(trace, random, coverage),
        4 => damage(trace, random, coverage),
        5 => open_pair(trace, random),
        6 => older_pair_binds(trace, random, coverage),
        7 => access_soon_after(trace, random, coverage),
        8 => access_after_a_wait(trace, random),
        other => sleep_ending::end_soon(other - 9, trace, random, coverage),
    }
}

/// Counts the parts of rules that words put now break by a single clock.
pub fn by_one_clock(trace: &Trace, words: &[u32], coverage: &mut Coverage) {
    meet_edges(coverage, "broken by one clock", &trace.broken_by(words));
}

/// A pair one clock before its earliest, if it has to wait at all.
fn one_clock_early(trace: &mut Trace, random: &Random, coverage: &mut Coverage) {
    let kind = some_kind(random);
    let words = trace.words_of(random, kind, random.pick(&[0, 1]));
    if let Some(clock) = trace.earliest(&words).filter(|&c| c > trace.clock()) {
        trace.idle_until(clock - 1);
        by_one_clock(trace, &words, coverage);
    }
    trace.add(&words);
}

/// A pair at any clock before its earliest, often wrong in its pins too.
fn early_and_wrong(trace: &mut Trace, random: &Random) {
    let kind = some_kind(random);
    let words = trace.words_of(random, kind, random.pick(&[0, 1]));
    if let Some(clock) = trace.earliest(&words) {
        let wait = random.below((clock - trace.clock()).min(20) + 1);
        trace.idle_until(clock - wait);
    }
    trace.add(&spoil(random, kind, words));
}

/// The words with some of their pins put wrong.
fn spoil(random: &Random, kind: Kind, [mut first, mut second]: [u32; 2]) -> [u32; 2] {
    if random.once_in(2) && kind.is_mode() {
        second ^= random.pick(&[BA2, BA1, BA0, a(0), a(1), a(6), a(7), a(13)]);
    }
    if random.once_in(2) && kind == Kind::Write {
        second &= random.pick(&[!(BA2 | a(13)), !(a(12) | a(11))]);
    }
    if random.once_in(3) {
        second &= !PD;
    }
    if random.once_in(3) {
        second |= 1 << random.between(20, 31);
    }
    if random.once_in(20) {
        first ^= random.pick(&[PD, 1 << 20, 1 << 31]);
    }
    [first, second]
}

/// A REF word at the last clock that rule 3 allows and a pause, or one clock later, or none at all.
fn refresh_at_the_last_clock(trace: &mut Trace, random: &Random, coverage: &mut Coverage) {
    let Some(limit) = trace.refresh_limit() else {
        return trace.idle_until(trace.clock() + 1000);
    };
    let late = random.below(3);
    refresh_by(trace, random, limit + late, coverage);
    if late == 0 && random.once_in(2) {
        pause_about_the_limit(trace, random, coverage);
    }
}

/// A refresh with its REF word at a clock, unless that is past; at times a sleep is before it.
fn refresh_by(trace: &mut Trace, random: &Random, clock: u32, coverage: &mut Coverage) {
    if random.once_in(3) {
        trace.pass_until(random, clock - 3, coverage);
    }
    trace.idle_until(clock - 1);
    let words = trace.words_of(random, Kind::Refresh, random.below(8));
    trace.add(&words);
}

/// DESL, or a sleep, up to the last clock that rule 3 allows, or not quite, or up to the next.
fn pause_about_the_limit(trace: &mut Trace, random: &Random, coverage: &mut Coverage) {
    if let Some(limit) = trace.refresh_limit() {
        let clock = limit + random.pick(&[0, 1, 2, 2]);
        trace.pass_until(random, clock, coverage);
    }
}

/// Refreshes as close as allowed until there are so many, and a pause. At times each of a few more
/// comes at the last clock that rule 3 allows, which after the eighth is as soon as old ones came.
fn pause_after_a_bunch(trace: &mut Trace, random: &Random, count: usize, coverage: &mut Coverage) {
    // A start-up has two of its own, so mostly the bunch is all there is.
    if count < 2 || !random.once_in(4) {
        *trace = Trace::new(trace.sheet);
    }
    bunch(trace, random, count, coverage);
    let further = match trace.refs().len() < 8 {
        true => random.pick(&[0, 0, 0, 1]),
        false => random.pick(&[0, 0, 1, 3]),
    };
    for _ in 0..further {
        if let Some(limit) = trace.refresh_limit() {
            refresh_by(trace, random, limit, coverage);
        }
    }
    pause_about_the_limit(trace, random, coverage);
}

/// Refreshes as close as allowed until there are so many.
fn bunch(trace: &mut Trace, random: &Random, count: usize, coverage: &mut Coverage) {
    while trace.refs().len() < count && trace.put_kind(random, Kind::Refresh, coverage) {}
}

/// A pair whose closing word is the first that comes too late for the refresh, other pairs before, and
/// seldom a bunch of refreshes before all.
fn overdue_pair(trace: &mut Trace, random: &Random, coverage: &mut Coverage) {
    if random.once_in(8) {
        bunch(trace, random, 8, coverage);
    }
    let Some(limit) = trace.refresh_limit() else {
        return;
    };
    trace.idle_until(limit - random.between(3, 14));
    for _ in 0..random.below(4) {
        let kind = some_kind(random);
        let words = trace.words_of(random, kind, random.pick(&[0, 1]));
        let fits = trace
            .earliest(&words)
            .is_some_and(|clock| clock + 1 < limit);
        if fits && kind != Kind::Refresh {
            trace.put(&words, coverage);
        }
    }
    trace.idle_until(limit);
    let kind = some_kind(random);
    let words = trace.words_of(random, kind, random.pick(&[0, 1]));
    trace.add(&spoil(random, kind, words));
}

/// Refreshes as close as allowed, and one more where the eighth last still binds, maybe beside
/// something else that binds.
fn nine_refreshes(trace: &mut Trace, random: &Random, coverage: &mut Coverage) {
    for _ in 0..random.between(7, 9) {
        if !trace.put_kind(random, Kind::Refresh, coverage) {
            return;
        }
    }
    if random.once_in(2) {
        trace.put_kind(random, some_kind(random), coverage);
    }
    let words = trace.words_of(random, Kind::Refresh, random.below(8));
    if let Some(clock) = trace.earliest(&words) {
        let wait = clock - trace.clock();
        let early = random.pick(&[0, 1, wait, wait - random.below(wait.min(5) + 1)]);
        trace.idle_until(clock - early.min(wait));
        if early == 1 && wait > 0 {
            by_one_clock(trace, &words, coverage);
        }
    }
    let words = if random.once_in(4) {
        spoil(random, Kind::Refresh, words)
    } else {
        words
    };
    trace.add(&words);
    trace.idle_until(trace.clock() + random.below(3));
}

/// A first word and no second.
fn open_pair(trace: &mut Trace, random: &Random) {
    let words = trace.words_of(random, some_kind(random), random.below(8));
    trace.idle_until(trace.clock() + random.below(5));
    trace.word(words[0] & !CS);
}

/// Reads or writes of one bank with those of another between, the last one at the edge of RC.
fn older_pair_binds(trace: &mut Trace, random: &Random, coverage: &mut Coverage) {
    let kinds = [Kind::Read, Kind::Write];
    let kind = random.pick(&kinds);
    let words = trace.words_of(random, kind, 5);
    if !trace.put(&words, coverage) {
        return;
    }
    let start = trace.clock() - 2;
    let between = trace.words_of(random, random.pick(&kinds), 6);
    let fits = trace
        .earliest(&between)
        .is_some_and(|clock| clock + 2 < start + trace.sheet.rc());
    if fits {
        trace.put(&between, coverage);
        coverage.meet("an older pair of the bank binds");
    }
    let again = trace.words_of(random, random.pick(&kinds), 5);
    let early = random.below(2);
    trace.idle_until(start + trace.sheet.rc() - early);
    trace.add(&again);
}

/// A read or write, a mode or refresh as soon as allowed, and a read or write right after.
fn access_soon_after(trace: &mut Trace, random: &Random, coverage: &mut Coverage) {
    let kinds = [Kind::Read, Kind::Write];
    let others = [Kind::Regular, Kind::Extended, Kind::Refresh];
    if !trace.put_kind(random, random.pick(&kinds), coverage) {
        return;
    }
    trace.put_kind(random, random.pick(&others), coverage);
    trace.idle_until(trace.clock() + random.below(2));
    let kind = random.pick(&kinds);
    let words = trace.words_of(random, kind, random.pick(&[0, 3]));
    trace.add(&spoil(random, kind, words));
}

/// A read or write well after all else, which only a start-up that is not whole forbids.
fn access_after_a_wait(trace: &mut Trace, random: &Random) {
    trace.idle_until(trace.clock() + random.between(100, 300));
    let kind = random.pick(&[Kind::Read, Kind::Write]);
    let words = trace.words_of(random, kind, random.below(8));
    trace.add(&words);
}
