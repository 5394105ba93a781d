//! Programs that give wrong data clocks: the published rows tell each wrong reading from the right one, and
//! the suite's calls each wrong tally, as the suites' check does.

use reference::counts::{counts, Counts};
use reference::coverage::Coverage;
use reference::expected::answers;
use reference::lines;
use reference::pair::{self, Kind, Operation};
use reference::random::Random;
use reference::script::{Call, Packer};
use reference::sheet::{Sheet, SHEET_E};
use reference::suites::data::check;
use reference::suites::{rows, tally};
use reference::word::{high, opens, PD};

/// Latency and length of a pair that can be read, from the sheet, what the pair stands for, and its kind.
type Data = fn(&Sheet, &Operation, Kind) -> (u32, u32);

/// The right ones.
fn right(sheet: &Sheet, kind: Kind) -> (u32, u32) {
    match kind {
        Kind::Read => (sheet.cl, sheet.bl / 2),
        Kind::Write => (sheet.cl - 1, sheet.bl / 2),
        _ => (0, 0),
    }
}

/// The words that a pair stands for, if it is a write, in its lane with more of them and in both.
fn lanes(operation: &Operation) -> Option<(u32, u32)> {
    match operation {
        Operation::Access(r) if r.write => Some((r.lower.max(r.upper), r.lower + r.upper)),
        _ => None,
    }
}

/// Data clocks that are wrong.
const DATA: [(&str, Data); 12] = [
    ("CL for a write", |s, _, k| match right(s, k) {
        (_, length @ 1..) => (s.cl, length),
        none => none,
    }),
    ("WL for a read", |s, _, k| match right(s, k) {
        (_, length @ 1..) => (s.cl - 1, length),
        none => none,
    }),
    ("from the first word", |s, _, k| match right(s, k) {
        (latency @ 1.., length) => (latency + 1, length),
        none => none,
    }),
    ("up to the last data", |s, _, k| {
        let (latency, length) = right(s, k);
        (latency + length, length)
    }),
    ("BL", |s, _, k| (right(s, k).0, 2 * right(s, k).1)),
    ("2 for each", |s, _, k| {
        (right(s, k).0, 2 * right(s, k).1.min(1))
    }),
    ("1 for each", |s, _, k| {
        (right(s, k).0, right(s, k).1.min(1))
    }),
    ("the lane with more words", |s, o, k| match lanes(o) {
        Some((most, _)) => (right(s, k).0, most.div_ceil(2)),
        None => right(s, k),
    }),
    ("the words of both lanes", |s, o, k| match lanes(o) {
        Some((_, both)) => (right(s, k).0, both.div_ceil(4)),
        None => right(s, k),
    }),
    ("modes as reads", |s, _, k| match k.is_mode() {
        true => right(s, Kind::Read),
        false => right(s, k),
    }),
    ("refreshes as writes", |s, _, k| match k {
        Kind::Refresh => right(s, Kind::Write),
        _ => right(s, k),
    }),
    ("sheet E's", |_, _, k| right(&SHEET_E, k)),
];

/// A program's line for a pair on a sheet.
fn line(data: Data, sheet: &Sheet, [first, second]: [u32; 2]) -> String {
    let kind = pair::kind(first, second);
    let mut reading = pair::read(sheet, first, second);
    if let Ok(reading) = &mut reading {
        let (latency, length) = data(sheet, &reading.operation, kind);
        (reading.data.latency, reading.data.length) = (latency, length);
    }
    lines::reading(reading)
}

/// Every published row that reads a pair: its sheet, its words and its line.
fn published() -> Vec<(Sheet, [u32; 2], String)> {
    let mut published = Vec::new();
    for (_, row) in rows::named() {
        if let [config, Call::ReadPair(first, second)] = &row.calls()[..] {
            let sheet = config.sheet().expect("a configuration");
            published.push((sheet, [*first, *second], format!("{}\n", row.line)));
        }
    }
    published
}

#[test]
fn wrong_readings_are_found() {
    let differ = |data| {
        let rows = published().into_iter();
        rows.filter(|(sheet, pair, due)| line(data, sheet, *pair) != *due)
            .count()
    };
    assert_eq!(differ(|sheet, _, kind| right(sheet, kind)), 0);
    for (name, data) in DATA {
        assert!(differ(data) > 0, "{name}");
    }
}

/// The data length that a closed pair adds to a tally, from the sheet and both words.
type Adds = fn(&Sheet, u32, u32) -> u32;

/// BL / 2 for a pair of one of these kinds.
fn of_kinds(sheet: &Sheet, first: u32, second: u32, kinds: &[Kind]) -> u32 {
    u32::from(kinds.contains(&pair::kind(first, second))) * sheet.bl / 2
}

/// The right length.
fn due(sheet: &Sheet, first: u32, second: u32) -> u32 {
    of_kinds(sheet, first, second, &[Kind::Read, Kind::Write])
}

/// Lengths that are wrong.
const LENGTHS: [(&str, Adds); 11] = [
    ("BL", |s, f, c| 2 * due(s, f, c)),
    ("1 for each", |s, f, c| due(s, f, c).min(1)),
    ("sheet E's", |_, f, c| due(&SHEET_E, f, c)),
    ("reads alone", |s, f, c| of_kinds(s, f, c, &[Kind::Read])),
    ("writes alone", |s, f, c| of_kinds(s, f, c, &[Kind::Write])),
    ("every pair", |s, f, c| of_kinds(s, f, c, &Kind::ALL)),
    ("nothing", |_, _, _| 0),
    ("latencies too", |s, f, c| {
        let (latency, length) = right(s, pair::kind(f, c));
        latency + length
    }),
    ("pairs that can be read", |s, f, c| {
        pair::read(s, f, c).map_or(0, |reading| reading.data.length)
    }),
    ("no write with a reserved lane", |s, f, c| {
        let reserved = pair::kind(f, c) == Kind::Write && pair::reserved_lane(s, c);
        due(s, f, c) * u32::from(!reserved)
    }),
    ("no pair that a low word closes", |s, f, c| {
        due(s, f, c) * u32::from(high(c, PD))
    }),
];

/// The counts of a trace with other lengths of data; of a pair that stays open too, if that counts.
fn with_lengths(sheet: &Sheet, words: &[u32], adds: Adds, open: bool) -> Result<Counts, u32> {
    let mut tally = counts(sheet, words)?;
    tally.data = 0;
    let mut rest = words;
    while let [first, behind @ ..] = rest {
        rest = match behind {
            [second, behind @ ..] if opens(*first) => {
                tally.data += adds(sheet, *first, *second);
                behind
            }
            _ => {
                tally.data += u32::from(open && opens(*first)) * sheet.bl / 2;
                behind
            }
        };
    }
    Ok(tally)
}

/// Every tally of the checker's suite: its sheet, its words and the reference's line.
fn asked() -> Vec<(Sheet, Vec<u32>, String)> {
    let mut asked = Vec::new();
    let mut send = |script: &[u8]| {
        let played = answers(script);
        let lines: Vec<&str> = played.text.lines().collect();
        let made = played.calls.into_iter().zip(played.configurations);
        for ((call, sheet), end) in made.zip(played.ends) {
            if let Call::Count(words) = call {
                asked.push((sheet, words, format!("{}\n", lines[end - 1])));
            }
        }
    };
    let mut packer = Packer::new(&mut send);
    let random = Random::new(7);
    tally::cases(&random, 1, &mut packer, &mut Coverage::default());
    packer.finish();
    asked
}

/// Whether the suites' check finds fault with the line of a tally.
fn faulty(sheet: &Sheet, words: &[u32], line: &str) -> bool {
    let calls = [
        Call::ConfigWired(sheet.numbers()),
        Call::Count(words.to_vec()),
    ];
    check(&calls, &format!("config\n{line}")).is_err()
}

#[test]
fn wrong_lengths_in_tallies_are_found() {
    let asked = asked();
    let told = |adds, open| {
        let mut found = 0;
        for (sheet, words, ours) in &asked {
            let other = lines::counts(with_lengths(sheet, words, adds, open));
            assert_eq!(other != *ours, faulty(sheet, words, &other), "{other}");
            found += u32::from(other != *ours);
        }
        found
    };
    assert_eq!(told(due, false), 0);
    assert!(told(due, true) > 100);
    for (name, adds) in LENGTHS {
        assert!(told(adds, false) > 100, "{name}");
    }
}

/// The refusal of a program's tally, from the sheet.
type Refuses = fn(&Sheet) -> Option<u32>;

/// Refusals that are wrong.
const REFUSALS: [(&str, Refuses); 4] = [
    ("none", |_| None),
    ("the last", |s| s.refusals().last()),
    ("without the wiring", |s| {
        Sheet { wiring: 8, ..*s }.refusal()
    }),
    ("20 alone", |s| s.refusal().filter(|n| *n == 20)),
];

#[test]
fn wrong_refusals_of_tallies_are_found() {
    let asked = asked();
    for (name, refuses) in REFUSALS {
        let mut found = 0;
        for (sheet, words, ours) in &asked {
            let other = match refuses(sheet) {
                Some(number) => lines::refused(number),
                None => lines::counts(counts(sheet, words).or(Ok(Counts::default()))),
            };
            assert_eq!(
                other != *ours,
                faulty(sheet, words, &other),
                "{name}: {other}"
            );
            found += u32::from(other != *ours);
        }
        assert!(found > 100, "{name}");
    }
}
