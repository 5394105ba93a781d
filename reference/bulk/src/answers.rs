//! The reference's answers as the archive's numbers.

use reference::checker::Step;
use reference::judge::{check, Verdict};
use reference::limits::{check_within, Limits};
use reference::past::Past;
use reference::sheet::Sheet;
use reference::walk::{Move, Walk};

/// What the numbers of breaches begin at, above all refusals.
const BREACHES: u64 = 1 << 40;

/// The number of a breach.
fn breach(clock: u32, number: u32) -> u64 {
    BREACHES + u64::from(clock) * 64 + u64::from(number)
}

/// The clock and the number of a breach, if an answer is one.
pub fn breach_of(answer: u64) -> Option<(u64, u64)> {
    let breach = answer.checked_sub(BREACHES)?;
    Some((breach / 64, breach % 64))
}

/// An answer in words.
pub fn meaning(answer: u64) -> String {
    match (answer, breach_of(answer)) {
        (_, Some((clock, number))) => format!("breach {clock} {number}"),
        (0, None) => "no fault".to_string(),
        (number, None) => format!("refused {number}"),
    }
}

/// The number of a whole check.
pub fn check_number<P: Past>(sheet: &Sheet, words: &[u32]) -> u64 {
    match check::<P>(sheet, words) {
        Ok(Verdict::Accepted) => 0,
        Ok(Verdict::Breach { clock, number }) => breach(clock, number),
        Err(number) => number.into(),
    }
}

/// The number of a check on every sheet in the limits, with the breach on one of those that could be shown.
pub fn limits_number<P: Past>(limits: &Limits, words: &[u32]) -> u64 {
    match check_within::<P>(limits.least, limits.greatest, words) {
        Ok(None) => 0,
        Ok(Some(shown)) => breach(shown.clock, shown.number),
        Err(number) => number.into(),
    }
}

/// The numbers of the move that ends a fresh walk and of one more.
pub fn walk_numbers<P: Past>(sheet: &Sheet, words: &[u32]) -> (u64, u64) {
    let mut walk = Walk::<P>::fresh(*sheet, words);
    let mut stop = walk.advance();
    while stop == Some(Step::Pass) {
        stop = walk.advance();
    }
    (move_number(stop), move_number(walk.advance()))
}

fn move_number(moved: Move) -> u64 {
    match moved {
        None => 0,
        Some(Step::Pass) => unreachable!("a walk that has ended"),
        Some(Step::Breach { clock, number }) => breach(clock, number),
        Some(Step::Refused(number)) => number.into(),
    }
}
