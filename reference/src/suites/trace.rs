//! Traces that keep close to the rules: a builder that knows the earliest clock of the next pair.

use super::pool;
use crate::coverage::Coverage;
use crate::history::{Broken, History};
use crate::pair::Kind;
use crate::past::Past;
use crate::random::Random;
use crate::sheet::Sheet;
use crate::word::DESL;

/// A trace under way and what the rules make of it.
#[derive(Clone)]
pub struct Trace {
    pub sheet: Sheet,
    pub past: History,
    pub words: Vec<u32>,
}

/// The last clock that rule 3 allows after these REF words, oldest first; none without any.
pub fn refresh_limit(sheet: &Sheet, refs: &[u32]) -> Option<u32> {
    let m = refs.len().min(8);
    let mth_last = refs.get(refs.len() - m)?;
    Some(mth_last + m as u32 * sheet.d())
}

/// The name of a broken part of a rule.
pub fn part_name(broken: &Broken) -> String {
    format!("{} {}", broken.number, broken.part)
}

/// Counts parts of rules that are a single clock away, and one that nothing else stands beside once more.
pub fn meet_edges(coverage: &mut Coverage, what: &str, parts: &[Broken]) {
    for part in parts {
        coverage.meet(&format!("{what}: {}", part_name(part)));
    }
    if let [only] = parts {
        coverage.meet(&format!("{what}, alone: {}", part_name(only)));
    }
}

impl Trace {
    /// An empty trace.
    pub fn new(sheet: Sheet) -> Trace {
        Trace {
            sheet,
            past: History::fresh(),
            words: Vec::new(),
        }
    }

    /// The clock of the next word.
    pub fn clock(&self) -> u32 {
        self.past.clock
    }

    /// The clocks of the REF words so far, oldest first.
    pub fn refs(&self) -> Vec<u32> {
        self.past.ref_words().collect()
    }

    /// The last clock that rule 3 allows as things stand.
    pub fn refresh_limit(&self) -> Option<u32> {
        refresh_limit(&self.sheet, &self.refs())
    }

    /// Adds one word, whatever the rules say.
    pub fn word(&mut self, word: u32) {
        self.past.push(&self.sheet, word);
        self.words.push(word);
    }

    /// Adds DESL words up to a clock.
    pub fn idle_until(&mut self, clock: u32) {
        while self.clock() < clock {
            self.word(DESL);
        }
    }

    /// Adds words, whatever the rules say.
    pub fn add(&mut self, words: &[u32]) {
        words.iter().for_each(|&word| self.word(word));
    }

    /// What words put now would break, at the first of them that breaks something.
    pub fn broken_by(&self, words: &[u32]) -> Vec<Broken> {
        let mut ahead = self.past.clone();
        for &word in words {
            let broken = ahead.broken(&self.sheet, word);
            if !broken.is_empty() {
                return broken;
            }
            ahead.push(&self.sheet, word);
        }
        Vec::new()
    }

    /// The earliest clock from now on at which the words, both of a pair or one that goes low, break
    /// nothing; none if waiting for it breaks rule 3 or is in vain.
    pub fn earliest(&self, words: &[u32]) -> Option<u32> {
        let mut ahead = Trace {
            sheet: self.sheet,
            past: self.past.clone(),
            words: Vec::new(),
        };
        let last = self.clock() + self.sheet.d() + 300;
        while ahead.past.lowest(&self.sheet, DESL).is_none() && ahead.clock() < last {
            if ahead.broken_by(words).is_empty() {
                return Some(ahead.clock());
            }
            ahead.past.push(&self.sheet, DESL);
        }
        None
    }

    /// Puts the words at their earliest clock, and counts the parts of rules that held them back until
    /// then. False if they cannot be put.
    pub fn put(&mut self, words: &[u32], coverage: &mut Coverage) -> bool {
        let Some(clock) = self.earliest(words) else {
            return false;
        };
        if clock > self.clock() {
            self.idle_until(clock - 1);
            meet_edges(coverage, "kept at its edge", &self.broken_by(words));
        }
        self.idle_until(clock);
        self.add(words);
        true
    }

    /// Words for a pair of the kind, ignored pins at random.
    pub fn words_of(&self, random: &Random, kind: Kind, bank: u32) -> [u32; 2] {
        let operation = pool::operation(random, &self.sheet, kind, bank);
        pool::noisy(random, &self.sheet, kind, &operation).into()
    }

    /// Puts a pair of the kind at its earliest clock.
    pub fn put_kind(&mut self, random: &Random, kind: Kind, coverage: &mut Coverage) -> bool {
        let bank = random.pick(&[0, 0, 0, 1, 2, 7]);
        let words = self.words_of(random, kind, bank);
        self.put(&words, coverage)
    }

    /// The start-up whole, in the usual order, as far as reads and writes are allowed.
    pub fn make_ready(&mut self, random: &Random) {
        for kind in [Kind::Extended, Kind::Regular, Kind::Refresh, Kind::Refresh] {
            self.put_kind(random, kind, &mut Coverage::default());
        }
        self.idle_until(201);
    }

    /// The start-up, mostly in the usual order and whole, at the earliest clocks.
    pub fn start_up(&mut self, random: &Random, coverage: &mut Coverage) {
        let mut kinds = vec![Kind::Extended, Kind::Regular, Kind::Refresh, Kind::Refresh];
        if random.once_in(3) {
            let (i, j) = (random.below(4) as usize, random.below(4) as usize);
            kinds.swap(i, j);
        }
        if random.once_in(8) {
            let again = random.pick(&kinds);
            kinds.insert(random.below(5) as usize, again);
        }
        if random.once_in(8) {
            kinds.remove(random.below(4) as usize);
        }
        for kind in kinds {
            if random.once_in(4) {
                self.idle_until(self.clock() + random.below(20));
            }
            self.put_kind(random, kind, coverage);
        }
    }
}

/// A kind at random, reads and writes most often.
pub fn some_kind(random: &Random) -> Kind {
    random.pick(&[
        Kind::Read,
        Kind::Read,
        Kind::Read,
        Kind::Write,
        Kind::Write,
        Kind::Write,
        Kind::Regular,
        Kind::Extended,
        Kind::Refresh,
        Kind::Refresh,
    ])
}
