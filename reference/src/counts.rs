//! The tally: closed pairs of the four kinds, DESL words and the clocks of data, counted without judging. A
//! word with PD low and no pair open counts as DESL.

use crate::data::DataClocks;
use crate::history::History;
use crate::pair::{self, Kind};
use crate::past::Past;
use crate::sheet::Sheet;
use crate::word::opens;

/// What the tally gives.
#[derive(Clone, Copy, Debug, Default, PartialEq, Eq)]
pub struct Counts {
    pub reads: u32,
    pub writes: u32,
    pub modes: u32,
    pub refreshes: u32,
    pub desls: u32,
    /// The sum of the data lengths of its reads and writes.
    pub data: u32,
}

/// How many counts there are.
pub const COUNTS: usize = 6;

impl Counts {
    /// The counts in the paper's order.
    pub fn numbers(&self) -> [u32; COUNTS] {
        [
            self.reads,
            self.writes,
            self.modes,
            self.refreshes,
            self.desls,
            self.data,
        ]
    }

    /// Counts a pair of a kind, its data aside.
    fn add(&mut self, kind: Kind) {
        match kind {
            Kind::Read => self.reads += 1,
            Kind::Write => self.writes += 1,
            Kind::Regular | Kind::Extended => self.modes += 1,
            Kind::Refresh => self.refreshes += 1,
        }
    }
}

/// The longest trace that the tally takes.
pub const LONGEST_TALLY: usize = 65_536;

/// Counts a trace of any words at all: the sheet's refusals, then 30 if it is too long, then the counts, in
/// two ways that must come to the same.
pub fn counts(sheet: &Sheet, words: &[u32]) -> Result<Counts, u32> {
    if let Some(number) = sheet.refusal() {
        return Err(number);
    }
    if words.len() > LONGEST_TALLY {
        return Err(30);
    }
    let counts = by_turns(sheet, words);
    assert_eq!(by_history(sheet, words), counts, "the two tallies differ");
    Ok(counts)
}

/// The refusal's number or 0, and the counts, which are all 0 if the tally is refused.
pub fn numbers(tally: Result<Counts, u32>) -> (u32, [u32; COUNTS]) {
    match tally {
        Ok(counts) => (0, counts.numbers()),
        Err(number) => (number, Counts::default().numbers()),
    }
}

/// By the whole history: its closed pairs by their kinds, with the data length that reading gives a pair of
/// the kind, and the words that stand in no pair.
fn by_history(sheet: &Sheet, words: &[u32]) -> Counts {
    let mut history = History::fresh();
    words.iter().for_each(|&word| history.push(sheet, word));
    let mut counts = Counts::default();
    for pair in &history.pairs {
        counts.add(pair.kind);
        counts.data += DataClocks::of(sheet, pair.kind).length;
    }
    let in_pairs = 2 * history.pairs.len() + usize::from(history.open.is_some());
    counts.desls = (words.len() - in_pairs) as u32;
    counts
}

/// In turns, each of which takes both words of a pair or a single word and keeps the counts alone. A read or
/// write has BL words of data, two in a clock.
fn by_turns(sheet: &Sheet, words: &[u32]) -> Counts {
    let mut counts = Counts::default();
    let mut rest = words;
    while let [first, behind @ ..] = rest {
        rest = match behind {
            [second, behind @ ..] if opens(*first) => {
                counts.add(pair::kind(*first, *second));
                behind
            }
            _ => {
                counts.desls += u32::from(!opens(*first));
                behind
            }
        };
    }
    counts.data = (counts.reads + counts.writes) * sheet.bl / 2;
    counts
}
