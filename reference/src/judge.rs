//! The judgement of a trace: the rules word by word, and the whole check.

use crate::history::{Broken, History};
use crate::past::Past;
use crate::sheet::Sheet;
use std::ops::RangeInclusive;

/// The answer of a whole judgement.
#[derive(Clone, Copy, Debug, PartialEq, Eq)]
pub enum Verdict {
    Accepted,
    Breach { clock: u32, number: u32 },
}

/// The verdict of a breach.
pub fn breach(clock: u32, number: u32) -> Verdict {
    Verdict::Breach { clock, number }
}

/// The numbers of the rules, each that of its breach.
pub const RULES: RangeInclusive<u32> = 1..=13;

/// The longest trace, and the clock at which a state takes no further word.
pub const LONGEST: u32 = 16_777_216;

/// Judges a trace by the rules alone; the sheet is an accepted one.
pub fn judge<P: Past>(sheet: &Sheet, words: &[u32]) -> Verdict {
    let mut past = P::fresh();
    for &word in words {
        if let Some(number) = past.lowest(sheet, word) {
            return breach(past.clock(), number);
        }
        past.push(sheet, word);
    }
    Verdict::Accepted
}

/// The words up to the first breaching clock and all that is broken there, or all words and nothing:
/// for a tale of the edges and breaches that were met.
pub fn first_broken(sheet: &Sheet, words: &[u32]) -> (History, Vec<Broken>) {
    let mut kept = History::fresh();
    for &word in words {
        let broken = kept.broken(sheet, word);
        if !broken.is_empty() {
            return (kept, broken);
        }
        kept.push(sheet, word);
    }
    (kept, Vec::new())
}

/// The whole check: the sheet's refusals, then 24 for too long a trace, then the verdict.
pub fn check<P: Past>(sheet: &Sheet, words: &[u32]) -> Result<Verdict, u32> {
    if let Some(number) = sheet.refusal() {
        return Err(number);
    }
    if words.len() > LONGEST as usize {
        return Err(24);
    }
    Ok(judge::<P>(sheet, words))
}
