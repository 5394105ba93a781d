//! Traces for the checker's suite that fill a script, or reach the last clock.

use super::pool;
use super::trace::Trace;
use crate::judge::LONGEST;
use crate::pair::Kind;
use crate::past::Past;
use crate::random::Random;
use crate::script::{Call, Packer};
use crate::sheet::{Sheet, SHEET_E, SHEET_E_OF_FOUR};
use crate::summary::Summary;
use crate::word::{CS, DESL, FN, PD};

/// A trace of accesses at random banks, each as soon as allowed, with the refreshes that are due.
pub fn dense_words(random: &Random, sheet: &Sheet, length: usize) -> Vec<u32> {
    let mut start = Trace::new(*sheet);
    start.make_ready(random);
    let mut words = start.words;
    let mut past = Summary::fresh();
    words.iter().for_each(|&word| past.push(sheet, word));
    while words.len() < length {
        let due = past.refresh_limit(sheet).unwrap() - 20;
        let kind = match past.clock() > due {
            true => Kind::Refresh,
            false => random.pick(&[Kind::Read, Kind::Write]),
        };
        let bank = random.below(8);
        let operation = pool::operation(random, sheet, kind, bank);
        let pair = pool::noisy(random, sheet, kind, &operation);
        while !past.admits(sheet, pair) {
            past.push(sheet, DESL);
            words.push(DESL);
        }
        for word in [pair.0, pair.1] {
            past.push(sheet, word);
            words.push(word);
        }
    }
    words
}

/// A sheet on which accesses can follow each other closely.
pub fn quick_sheet(random: &Random) -> Sheet {
    let mut sheet = pool::sheet(random);
    (sheet.rbd, sheet.rwd, sheet.wrd) = (2, random.between(1, 3), 1);
    sheet
}

/// A trace of thousands of pairs that fills a script, and one spoilt near its end.
pub fn dense(random: &Random, packer: &mut Packer) {
    let sheet = quick_sheet(random);
    let mut words = dense_words(random, &sheet, 8_000);
    for call in [Call::Check, Call::Count, Call::Walk] {
        packer.group(&[pool::config(random, &sheet), call(words.clone())]);
    }
    let spoilt = words.len() - 1 - random.below(40) as usize;
    words[spoilt] ^= 1 << random.below(20);
    packer.group(&[pool::config(random, &sheet), Call::Check(words.clone())]);
    packer.group(&[pool::config(random, &sheet), Call::Walk(words)]);
}

/// The last clock: 24 there, for a good word and a bad one, asleep too, and 23 ahead of it after a breach.
pub fn last_clock(random: &Random, packer: &mut Packer) {
    let quick = |sheet| Sheet { rsc: 2, ..sheet };
    let fresh = pool::config(random, &quick(SHEET_E));
    let of_four = pool::config(random, &quick(SHEET_E_OF_FOUR));
    let step = |count, word| Call::Step { count, word };
    let extended = PD | FN | 0x4000;
    packer.group(&[
        fresh.clone(),
        step(LONGEST - 1, DESL),
        step(1, DESL),
        step(1, DESL),
        step(1, 0),
        step(0, 0),
        of_four.clone(),
        step(u32::MAX, CS),
        step(1, 0),
        step(0, DESL),
        of_four,
        step(LONGEST - 1, DESL),
        step(1, 0),
        step(1, DESL),
        step(0, DESL),
        fresh,
        step(LONGEST - 1, extended),
        step(2, extended),
    ]);
}
