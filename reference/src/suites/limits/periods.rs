//! The period decides: rule 12 at its least, where W is greatest, and rule 3 at its greatest, where D is
//! smallest; both; and beside a count. Traces whose verdicts the papers give.

use super::case::{at_the_last, everywhere, name, Case, WHERE};
use super::draw::{about, range, PERIOD};
use crate::coverage::Coverage;
use crate::judge::Verdict;
use crate::limits::Limits;
use crate::pair::Kind;
use crate::random::Random;
use crate::sheet::{Sheet, LIMITED};
use crate::suites::by_wiring;
use crate::suites::trace::Trace;

/// Periods so far apart give other figures D and W.
const APART: u32 = 30;

/// The REF words that a case of rule 3 has.
const REFS: [u32; 4] = [1, 2, 3, 8];

const BOTH_ENDS: &str = "3 and 12: at both ends of the period, not between";
const WITH_A_COUNT: &str = "12 and 8 RWD: on both given sheets, not on all";

/// D and W of a period, in picoseconds.
fn d(period: u32) -> u32 {
    3_900_000 / period
}

fn w(period: u32) -> u32 {
    3_200_000 / period + 1
}

/// What the cases must meet.
pub fn promised() -> Vec<String> {
    let overdue = REFS.map(|m| everywhere(&overdue_part(m)));
    let others = [BOTH_ENDS, WITH_A_COUNT].map(by_wiring);
    [everywhere("12 W"), overdue.concat(), others.concat()].concat()
}

/// The name of rule 3 after so many REF words.
fn overdue_part(m: u32) -> String {
    format!("3 D with m = {m}")
}

/// All cases on a part whose REFC leaves room for nine refreshes within any W.
pub fn each(random: &Random, part: &Sheet) -> Vec<Case> {
    let mut cases = crowded(random, part);
    cases.extend(REFS.into_iter().flat_map(|m| overdue(random, part, m)));
    cases.push(both_ends(random, part));
    cases.push(with_a_count(random, part));
    cases
}

/// Limits with room for the period, and at times for the counts too; and a period between, whose D is
/// not below W of the least one.
fn limits(random: &Random, part: &Sheet) -> (Limits, u32) {
    let (low, high) = range(part, PERIOD);
    let short = random.between(low, high - 2 * APART);
    let middle = random.between(short + APART, (high - APART).min(short + short / 5));
    let long = random.between(middle + APART, high);
    let room: Vec<usize> = match random.once_in(3) {
        true => LIMITED.skip(1).collect(),
        false => vec![],
    };
    let mut limits = about(random, *part, &room);
    limits.greatest.refc = part.refc.max(limits.least.refc);
    limits.least.period = short;
    limits.greatest.period = long;
    (limits, middle)
}

/// Refreshes as close as the greatest counts allow.
fn refreshes(random: &Random, trace: &mut Trace, count: u32) {
    for _ in 0..count {
        let put = trace.put_kind(random, Kind::Refresh, &mut Coverage::default());
        assert!(put, "no refresh is allowed");
    }
}

/// A refresh whose REF word is at a clock.
fn refresh_at(random: &Random, trace: &mut Trace, clock: u32) {
    trace.idle_until(clock - 1);
    let words = trace.words_of(random, Kind::Refresh, random.below(8));
    trace.add(&words);
}

/// Eight refreshes, and a ninth about W clocks after the first.
fn crowded(random: &Random, part: &Sheet) -> Vec<Case> {
    let (Limits { least, greatest }, _) = limits(random, part);
    let (most, fewest) = (w(least.period), w(greatest.period));
    let spacings = [fewest - 1, fewest, most - 1, most];
    let case = |(place, spacing)| {
        let mut trace = Trace::new(greatest);
        refreshes(random, &mut trace, 8);
        refresh_at(random, &mut trace, 1 + spacing);
        let length = trace.words.len();
        Case {
            name: name("12 W", place),
            limits: Limits { least, greatest },
            words: trace.words,
            verdict: Box::new(move |sheet| at_the_last(spacing < w(sheet.period), 12, length)),
        }
    };
    WHERE.into_iter().zip(spacings).map(case).collect()
}

/// So many refreshes, and DESL for about so many times D clocks after the first.
fn overdue(random: &Random, part: &Sheet, m: u32) -> Vec<Case> {
    let (Limits { least, greatest }, _) = limits(random, part);
    let (most, fewest) = (m * d(least.period), m * d(greatest.period));
    let pauses = [most + 1, most, fewest + 1, fewest];
    let case = |(place, pause)| {
        let mut trace = Trace::new(greatest);
        refreshes(random, &mut trace, m);
        trace.idle_until(1 + pause + 1);
        Case {
            name: name(&overdue_part(m), place),
            limits: Limits { least, greatest },
            words: trace.words,
            verdict: Box::new(move |sheet| overdue_after(m, pause, sheet)),
        }
    };
    WHERE.into_iter().zip(pauses).map(case).collect()
}

/// The verdict after m refreshes, the first REF word of which is at 1, and so many clocks from there.
fn overdue_after(m: u32, pause: u32, sheet: &Sheet) -> Verdict {
    let allowed = m * d(sheet.period);
    let late = Verdict::Breach {
        clock: 1 + allowed + 1,
        number: 3,
    };
    if pause > allowed {
        late
    } else {
        Verdict::Accepted
    }
}

/// A refresh, another as late as the middle period allows, and eight more of which the last is as
/// early as that allows. The one before is the ninth of all, and far enough from the first.
fn both_ends(random: &Random, part: &Sheet) -> Case {
    let (limits, middle) = limits(random, part);
    let (pause, spacing) = (d(middle), w(middle));
    let mut trace = Trace::new(Sheet {
        period: middle,
        ..limits.greatest
    });
    refreshes(random, &mut trace, 1);
    refresh_at(random, &mut trace, 1 + pause);
    refreshes(random, &mut trace, 7);
    refresh_at(random, &mut trace, 1 + pause + spacing);
    let length = trace.words.len();
    let verdict = move |sheet: &Sheet| match overdue_after(1, pause, sheet) {
        Verdict::Accepted => at_the_last(spacing < w(sheet.period), 12, length),
        late => late,
    };
    Case {
        name: BOTH_ENDS.to_string(),
        limits,
        words: trace.words,
        verdict: Box::new(verdict),
    }
}

/// Nine refreshes that only about the least period are too close; then a start-up, a read, and a write
/// that only the greatest RWD forbids.
fn with_a_count(random: &Random, part: &Sheet) -> Case {
    let (mut limits, _) = limits(random, part);
    (limits.least.rwd, limits.greatest.rwd) = (part.rwd, part.rwd + 1);
    limits.greatest.rbd = limits.least.rbd;
    let spacing = w(limits.least.period) - 1;
    let mut trace = Trace::new(limits.greatest);
    refreshes(random, &mut trace, 8);
    refresh_at(random, &mut trace, 1 + spacing);
    let crowded = trace.words.len();
    for kind in [Kind::Extended, Kind::Regular] {
        trace.put_kind(random, kind, &mut Coverage::default());
    }
    trace.idle_until(trace.clock() + 201);
    let read = trace.words_of(random, Kind::Read, 0);
    trace.add(&read);
    trace.idle_until(trace.clock() - 1 + part.rwd);
    let write = trace.words_of(random, Kind::Write, 1);
    trace.add(&write);
    let (length, rwd) = (trace.words.len(), part.rwd);
    let verdict = move |sheet: &Sheet| match spacing < w(sheet.period) {
        true => at_the_last(true, 12, crowded),
        false => at_the_last(sheet.rwd > rwd, 8, length),
    };
    Case {
        name: WITH_A_COUNT.to_string(),
        limits,
        words: trace.words,
        verdict: Box::new(verdict),
    }
}
