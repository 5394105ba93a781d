//! Traces near the edges of the rules, and what they meet of them: for every suite that judges traces.

use super::ending::end;
use super::trace::{part_name, refresh_limit, some_kind, Trace};
use super::{damage, pool, sleep};
use crate::coverage::Coverage;
use crate::history::History;
use crate::judge::first_broken;
use crate::random::Random;
use crate::sheet::Sheet;
use crate::word::{high, CS, DESL, FN, PD};

/// The breaches that can stand at one clock together; any other two exclude each other.
const TOGETHER: [(u32, &[u32]); 11] = [
    (1, &[2, 3, 4, 5, 6, 7, 8, 9, 10, 11, 12, 13]),
    (2, &[3, 4, 5, 6, 7, 8, 9, 10, 11, 12]),
    (3, &[4, 5, 6, 7, 8, 9, 11, 13]),
    (4, &[9, 10, 11]),
    (5, &[6, 7, 8, 9, 10]),
    (6, &[9, 10]),
    (7, &[8]),
    (8, &[9, 10]),
    (9, &[12]),
    (10, &[12]),
    (11, &[12]),
];

/// The parts of rules that a pair, or a word that goes low, can wait out, and so meet at their very edge.
pub const EDGES: [&str; 18] = [
    "2 RSC",
    "2 REFC",
    "2 read data",
    "2 write data",
    "2 wake-up word due",
    "3 D",
    "6 200 clocks",
    "7 RC",
    "8 RBD",
    "8 RWD",
    "8 WRD",
    "9 RSC",
    "10 REFC",
    "11 RC",
    "11 read data",
    "11 write data",
    "12 W",
    "13 second wake-up word",
];

/// Parts of rule 2 that are never broken alone: the data of a read or write is over with RC or after it,
/// and with it only at CL 3.
const WITH_DATA: [&str; 2] = ["2 RC after a read", "2 RC after a write"];

/// The parts that no waiting mends.
const OTHER_PARTS: [&str; 9] = [
    "1 high bit",
    "2 pair open",
    "2 CS low",
    "4 fields",
    "5 lane",
    "6 no extended MRS",
    "6 no regular MRS",
    "6 no second REF",
    "13 first wake-up word",
];

/// The most REF words before an edge of rule 3 that are counted by their number.
const REFS_NAMED: usize = 8;

/// The edge of rule 3 after so many REF words. Up to eight, that is m.
fn refresh_edge(refs: usize) -> String {
    match refs <= REFS_NAMED {
        true => format!("3 with m = {refs}"),
        false => "3 with more than eight REF words".to_string(),
    }
}

/// The edges of rule 3, each kept and broken.
pub fn promised_refresh_edges() -> Vec<String> {
    let mut promised = Vec::new();
    for refs in 1..=REFS_NAMED + 1 {
        let edge = refresh_edge(refs);
        promised.push(format!("kept at its edge: {edge}"));
        promised.push(format!("broken by one clock: {edge}"));
    }
    promised
}

/// What the traces of one round must meet together.
pub fn promised() -> Vec<String> {
    let mut promised = promised_refresh_edges();
    for (low, highs) in TOGETHER {
        promised.extend(
            highs
                .iter()
                .map(|high| format!("together: {low} and {high}")),
        );
    }
    promised.extend(EDGES.into_iter().flat_map(promised_edge));
    promised.extend(EDGES.map(|part| format!("broken alone: {part}")));
    promised.extend(OTHER_PARTS.map(|part| format!("broken alone: {part}")));
    for part in WITH_DATA {
        promised.push(format!("kept at its edge: {part}"));
        promised.push(format!("broken by one clock: {part}"));
    }
    promised.push("kept at its edge: 2 pair open".to_string());
    promised.push("an older pair of the bank binds".to_string());
    promised.extend(sleep::promised());
    promised.extend(damage::promised());
    promised
}

/// An edge kept and broken; those of power down also where nothing else stands there.
pub fn promised_edge(part: &str) -> Vec<String> {
    let edges = ["kept at its edge", "broken by one clock"];
    let mut promised = edges.map(|edge| format!("{edge}: {part}")).to_vec();
    if part.starts_with("2 ") || part.starts_with("13 ") {
        promised.extend(edges.map(|edge| format!("{edge}, alone: {part}")));
    }
    promised
}

/// One round of traces: one on every corner sheet, and many on sheets at random, ended in all ways.
pub fn round(
    random: &Random,
    number: u32,
    coverage: &mut Coverage,
    judged: &mut dyn FnMut(&mut Coverage, &Sheet, &[u32]),
) {
    for (i, sheet) in pool::corners().into_iter().enumerate() {
        let words = near_words(random, coverage, sheet, number + i as u32);
        judged(coverage, &sheet, &words);
    }
    for way in 0..12_000 {
        let sheet = pool::sheet(random);
        let words = near_words(random, coverage, sheet, way);
        judged(coverage, &sheet, &words);
    }
}

/// A trace on a sheet that keeps close to the rules, ended in one of the ways.
pub fn near_words(random: &Random, coverage: &mut Coverage, sheet: Sheet, way: u32) -> Vec<u32> {
    near_words_on(random, coverage, [sheet; 2], way)
}

/// A trace near the rules of two sheets of one wiring: behind its start-up it keeps close to those of the second.
pub fn near_words_on(
    random: &Random,
    coverage: &mut Coverage,
    [first, second]: [Sheet; 2],
    way: u32,
) -> Vec<u32> {
    let mut trace = Trace::new(first);
    if random.once_in(12) {
        trace.power_down(random, coverage);
    }
    trace.start_up(random, coverage);
    trace.sheet = second;
    for _ in 0..random.pick(&[0, 1, 2, 5, 12]) {
        let kind = some_kind(random);
        trace.put_kind(random, kind, coverage);
        if random.once_in(5) {
            trace.power_down(random, coverage);
        }
        if random.once_in(6) {
            trace.idle_until(trace.clock() + random.below(6));
        }
    }
    end(way, &mut trace, random, coverage);
    if random.once_in(3) {
        trace.idle_until(trace.clock() + 3);
    }
    trace.words
}

/// Counts the edges of rule 3 that a trace keeps, and what it breaks at its first breaching clock:
/// one part alone, or rules together.
pub fn count_broken(coverage: &mut Coverage, sheet: &Sheet, words: &[u32]) {
    let (kept, broken) = first_broken(sheet, words);
    sleep::count(coverage, &kept, words, &broken);
    count_refresh_edges(coverage, sheet, &kept, words);
    if broken.first().is_some_and(|b| b.number == 3) {
        // Every REF word allows later clocks, so the first that is too late is so by one.
        meet_refresh_edge(coverage, "broken by one clock", kept.ref_words().count());
    }
    if let [only] = broken[..] {
        coverage.meet(&format!("broken alone: {}", part_name(&only)));
    }
    let mut numbers: Vec<u32> = broken.iter().map(|b| b.number).collect();
    numbers.dedup();
    for (i, low) in numbers.iter().enumerate() {
        for high in &numbers[i + 1..] {
            coverage.meet(&format!("together: {low} and {high}"));
        }
    }
}

/// Counts the words kept that stand at the last clock that rule 3 allows.
fn count_refresh_edges(coverage: &mut Coverage, sheet: &Sheet, kept: &History, words: &[u32]) {
    let refs: Vec<u32> = kept.ref_words().collect();
    for count in 1..=refs.len() {
        // The last word with so many REF words before it: the next REF word, or the last of all.
        let last = refs.get(count).copied().unwrap_or(kept.clock - 1);
        if refresh_limit(sheet, &refs[..count]) == Some(last) {
            meet_refresh_edge(coverage, "kept at its edge", count);
            if !high(words[last as usize], PD) {
                coverage.meet("kept at its edge: 3 while PD is low");
            }
        }
    }
}

/// Counts an edge of rule 3 after so many REF words, and that of the rule as such.
fn meet_refresh_edge(coverage: &mut Coverage, what: &str, refs: usize) {
    coverage.meet(&format!("{what}: 3 D"));
    coverage.meet(&format!("{what}: {}", refresh_edge(refs)));
}

/// A short trace of words at random, some with few pins in play.
pub fn random_words(random: &Random) -> Vec<u32> {
    let few = [
        DESL,
        CS,
        CS | FN,
        0,
        PD,
        PD | FN,
        PD | 0x4000,
        PD | FN | 0x4000,
        PD | CS | 0x1_2000,
        PD | 0x42,
    ];
    let all_bits = random.once_in(3);
    let word = || match all_bits {
        true => {
            random.bits()
                & if random.once_in(2) {
                    u32::MAX
                } else {
                    0xF_FFFF
                }
        }
        false => random.pick(&few),
    };
    (0..30).map(|_| word()).collect()
}
