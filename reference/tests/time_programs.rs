//! Programs that time traces wrongly: the suite's calls tell each from the reference, and its check tells
//! each wrong line from a right one.

use reference::coverage::Coverage;
use reference::expected::answers;
use reference::script::{Call, Packer};
use reference::sheet::Sheet;
use reference::suites::time::{cases, check, promised};
use std::collections::BTreeSet;

/// The greatest count.
const LIMIT: u32 = 16_777_216;

/// Nanoseconds and rest, from count and period.
type Timed = fn(u64, u64) -> (u64, u64);

/// The refusal, from sheet and count.
type Refuses = fn(&Sheet, u32) -> Option<u32>;

/// A program's line for a count on a sheet.
fn line(refuses: Refuses, timed: Timed, sheet: &Sheet, count: u32) -> String {
    match refuses(sheet, count) {
        Some(number) => format!("refused {number}"),
        None => {
            let (nanoseconds, rest) = timed(count.into(), sheet.period.into());
            format!("time {nanoseconds} {rest}")
        }
    }
}

/// The refusal that is due.
fn due(sheet: &Sheet, count: u32) -> Option<u32> {
    sheet.refusal().or(above(count, LIMIT))
}

/// 32 for a count above a limit.
fn above(count: u32, limit: u32) -> Option<u32> {
    (count > limit).then_some(32)
}

/// The time that is due.
fn right(count: u64, period: u64) -> (u64, u64) {
    split(count * period)
}

/// Picoseconds as nanoseconds and rest.
fn split(picoseconds: u64) -> (u64, u64) {
    (picoseconds / 1_000, picoseconds % 1_000)
}

/// A rest of 1,000 where it should be 0.
fn full_rest(count: u64, period: u64) -> (u64, u64) {
    match right(count, period) {
        (nanoseconds @ 1.., 0) => (nanoseconds - 1, 1_000),
        time => time,
    }
}

/// Times that are wrong.
const TIMES: [(&str, Timed); 13] = [
    ("rounded up", |c, p| ((c * p).div_ceil(1_000), 0)),
    ("to the nearest", |c, p| ((c * p + 500) / 1_000, 0)),
    ("the rest dropped", |c, p| (c * p / 1_000, 0)),
    ("exchanged", |c, p| (c * p % 1_000, c * p / 1_000)),
    ("a rest of 1,000", full_rest),
    ("no carry", |c, p| (c * (p / 1_000), c * (p % 1_000))),
    ("the carry lost", |c, p| (c * (p / 1_000), c * p % 1_000)),
    ("32 bits", |c, p| split((c * p) & 0xFFFF_FFFF)),
    ("31 bits", |c, p| split((c * p) & 0x7FFF_FFFF)),
    ("a float", |c, p| split((c as f32 * p as f32) as u64)),
    ("24 bits of the count", |c, p| right(c & 0xFF_FFFF, p)),
    ("one word more", |c, p| right(c + 1, p)),
    ("sheet E's period", |c, _| right(c, 5000)),
];

/// Refusals that are wrong.
const REFUSALS: [(&str, Refuses); 8] = [
    ("32 at the limit", |s, c| {
        s.refusal().or(above(c, LIMIT - 1))
    }),
    ("32 too late", |s, c| s.refusal().or(above(c, LIMIT + 1))),
    ("no 32", |s, _| s.refusal()),
    ("24", |s, c| s.refusal().or(above(c, LIMIT).map(|_| 24))),
    ("32 ahead", |s, c| above(c, LIMIT).or(s.refusal())),
    ("the last", |s, c| s.refusals().last().or(above(c, LIMIT))),
    ("no sheet's", |_, c| above(c, LIMIT)),
    ("none of no words", |s, c| due(s, c).filter(|_| c > 0)),
];

/// Every call of the suite: its configuration, its count and the reference's line.
fn asked() -> Vec<(Sheet, u32, String)> {
    let mut asked = Vec::new();
    let mut send = |script: &[u8]| {
        let played = answers(script);
        let lines: Vec<&str> = played.text.lines().collect();
        let made = played.calls.iter().zip(&played.configurations);
        for ((call, sheet), end) in made.zip(&played.ends) {
            if let Call::Time(count) = call {
                asked.push((*sheet, *count, lines[end - 1].to_string()));
            }
        }
    };
    let mut packer = Packer::new(&mut send);
    cases(6, 1, &mut packer, &mut Coverage::default());
    packer.finish();
    asked
}

/// What the suite's check sees in a line, or that it is wrong.
fn seen(sheet: &Sheet, count: u32, line: &str) -> Result<Vec<String>, (usize, String)> {
    let calls = [Call::ConfigWired(sheet.numbers()), Call::Time(count)];
    check(&calls, &format!("config\n{line}\n"))
}

/// The reference's lines are those of a division.
#[test]
fn the_right_program_passes() {
    for (sheet, count, ours) in asked() {
        assert_eq!(line(due, right, &sheet, count), ours);
        assert!(seen(&sheet, count, &ours).is_ok(), "{count}: {ours}");
    }
}

#[test]
fn wrong_programs_are_found() {
    let times = TIMES.map(|(name, timed)| (name, due as Refuses, timed));
    let refusals = REFUSALS.map(|(name, refuses)| (name, refuses, right as Timed));
    let asked = asked();
    for (name, refuses, timed) in times.into_iter().chain(refusals) {
        let mut found = 0;
        for (sheet, count, ours) in &asked {
            let other = line(refuses, timed, sheet, *count);
            if other != *ours {
                assert!(seen(sheet, *count, &other).is_err(), "{name}: {other}");
                found += 1;
            }
        }
        assert!(found > 1_000, "{name}: {found}");
    }
}

#[test]
fn each_period_is_timed_with_either_wiring() {
    let asked = asked().into_iter();
    let timed = asked.filter(|(.., line)| line.starts_with("time"));
    let periods: BTreeSet<(u32, u32)> = timed.map(|(s, ..)| (s.wiring, s.period)).collect();
    assert_eq!(periods.len(), 2 * (8500 - 3750 + 1));
}

#[test]
fn each_name_that_lines_give_is_promised() {
    let mut met = Coverage::default();
    for (sheet, count, ours) in asked() {
        let names = seen(&sheet, count, &ours).unwrap();
        names.iter().for_each(|name| met.meet(name));
    }
    let promised = promised();
    let unpromised = met.met.keys().filter(|name| !promised.contains(name));
    assert_eq!(unpromised.count(), 0);
    assert!(met.met.len() > 100);
}
