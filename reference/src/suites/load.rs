//! Valid traces of any length: idle, busy, mixed and sleeping ones.

use crate::pair::{self, Kind, Operation};
use crate::past::Past;
use crate::random::Random;
use crate::sheet::Sheet;
use crate::suites::pool;
use crate::summary::Summary;
use crate::word::{CS, DESL};

/// A word with PD low, as it is written.
const LOW: u32 = CS;

/// REFC, the longest burst of reads and writes, and the longest sleep with its wake-up words fit into so
/// many clocks.
const ROUND: u32 = 500;

/// A trace under way; every pair waits until the rules admit it.
struct Load {
    sheet: Sheet,
    past: Summary,
    words: Vec<u32>,
}

impl Load {
    /// The start-up, as far as reads and writes are allowed.
    fn started(sheet: &Sheet, length: usize) -> Load {
        let mut load = Load {
            sheet: *sheet,
            past: Summary::fresh(),
            words: Vec::with_capacity(length + 1000),
        };
        let start_up = [
            Operation::Extended(0),
            Operation::Regular(false),
            Operation::Refresh,
            Operation::Refresh,
        ];
        for operation in start_up {
            load.put(pair::write(sheet, &operation).unwrap());
        }
        load.idle_until(201);
        load
    }

    fn clock(&self) -> u32 {
        self.past.clock()
    }

    fn word(&mut self, word: u32) {
        self.past.push(&self.sheet, word);
        self.words.push(word);
    }

    fn idle_until(&mut self, clock: u32) {
        while self.clock() < clock {
            self.word(DESL);
        }
    }

    /// Puts a pair as soon as allowed.
    fn put(&mut self, words: (u32, u32)) {
        while !self.past.admits(&self.sheet, words) {
            self.word(DESL);
        }
        self.word(words.0);
        self.word(words.1);
    }

    /// PD goes low as soon as allowed, and is low for so many clocks.
    fn sleep(&mut self, clocks: u32) {
        while self.past.lowest(&self.sheet, LOW).is_some() {
            self.word(DESL);
        }
        (0..clocks).for_each(|_| self.word(LOW));
    }

    /// The last clock that rule 3 allows without another refresh.
    fn due(&self) -> u32 {
        self.past.refresh_limit(&self.sheet).unwrap()
    }

    fn refresh(&mut self) {
        self.put(pair::write(&self.sheet, &Operation::Refresh).unwrap());
    }

    fn put_kind(&mut self, random: &Random, kind: Kind, bank: u32) {
        let operation = pool::operation(random, &self.sheet, kind, bank);
        self.put(pool::noisy(random, &self.sheet, kind, &operation));
    }

    fn cut(mut self, length: usize) -> Vec<u32> {
        self.words.truncate(length);
        self.words
    }
}

/// DESL and the refreshes that are needed, each at the last clock allowed.
pub fn idle(sheet: &Sheet, length: usize) -> Vec<u32> {
    let mut load = Load::started(sheet, length);
    while load.words.len() < length {
        load.idle_until(load.due() - 1);
        load.refresh();
    }
    load.cut(length)
}

/// Reads and writes as dense as the rules allow, over all banks in turn, with refreshes between.
pub fn busy(random: &Random, sheet: &Sheet, length: usize) -> Vec<u32> {
    let mut load = Load::started(sheet, length);
    let mut accesses = 0;
    while load.words.len() < length {
        if load.clock() + 30 > load.due() {
            load.refresh();
        }
        let kind = match accesses / 64 % 2 {
            0 => Kind::Read,
            _ => Kind::Write,
        };
        load.put_kind(random, kind, accesses % 8);
        accesses += 1;
    }
    load.cut(length)
}

/// Pairs of all kinds at random, with pauses at random.
pub fn mixed(random: &Random, sheet: &Sheet, length: usize) -> Vec<u32> {
    let mut load = Load::started(sheet, length);
    while load.words.len() < length {
        if load.clock() + 100 > load.due() || random.once_in(100) {
            load.refresh();
        }
        let kind = match random.below(60) {
            0 => Kind::Regular,
            1 => Kind::Extended,
            n if n % 2 == 0 => Kind::Read,
            _ => Kind::Write,
        };
        load.put_kind(random, kind, random.below(8));
        if random.once_in(2) {
            load.idle_until(load.clock() + random.below(16));
        }
    }
    load.cut(length)
}

/// Bursts of reads and writes, and sleeps of 5 to 200 clocks between them, with refreshes.
pub fn sleeping(random: &Random, sheet: &Sheet, length: usize) -> Vec<u32> {
    let mut load = Load::started(sheet, length);
    while load.words.len() < length {
        // Of refreshes that came close together, the next ones are due so too.
        while load.clock() + ROUND > load.due() {
            load.refresh();
        }
        for _ in 0..random.between(1, 16) {
            let kind = random.pick(&[Kind::Read, Kind::Write]);
            load.put_kind(random, kind, random.below(8));
        }
        load.sleep(random.between(5, 200));
    }
    load.cut(length)
}
