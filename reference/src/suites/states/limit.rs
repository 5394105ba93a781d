//! Where the clock of a state stands to its limit, the last clock that rule 3 allows: counted by the
//! place of the furthest REF word, which is m, and by whether a nearer place is 0, which is a gap.

use crate::past::Past;
use crate::sheet::Sheet;
use crate::summary::Summary;

const BEFORE: &str = "one clock before the limit";
const AT: &str = "at the limit";
const PAST: &str = "one clock past the limit";

/// What a call that may open a pair did there.
pub const OPENED: &str = "a pair opened";
pub const NOT_OPENED: &str = "no pair opened";

/// The name of a clock about the limit.
fn name(about: &str, m: u32, gap: bool) -> String {
    let gap = if gap { ", a gap" } else { "" };
    format!("{about} of rule 3, m = {m}{gap}")
}

/// The name of a state's clock, if it is about the limit; for states that no call refuses.
pub fn about_limit(sheet: &Sheet, past: &Summary) -> Option<String> {
    let (_, m) = past.furthest_ref()?;
    let limit = past.refresh_limit(sheet)?;
    let about = match i64::from(past.clock()) - i64::from(limit) {
        -1 => BEFORE,
        0 => AT,
        1 => PAST,
        _ => return None,
    };
    let gap = past.refs()[..m as usize].contains(&0);
    Some(name(about, m, gap))
}

/// A clock about the limit for each m, without a gap and with one.
fn for_each_m(about: &str) -> Vec<String> {
    let whole = (1..=8).map(|m| name(about, m, false));
    let with_gap = (2..=8).map(|m| name(about, m, true));
    whole.chain(with_gap).collect()
}

/// Of a call that takes a word: the last clock that is allowed, and the next.
pub fn promised_words(call: &str) -> Vec<String> {
    let clocks = [for_each_m(AT), for_each_m(PAST)].concat();
    clocks.iter().map(|at| format!("{call}: {at}")).collect()
}

/// Of a call that may open a pair: the last clock at which its two words are allowed, and the next.
pub fn promised_pairs(call: &str) -> Vec<String> {
    let (opened, held) = (for_each_m(BEFORE), for_each_m(AT));
    let opened = opened.iter().map(|at| format!("{call}: {OPENED} {at}"));
    let held = held.iter().map(|at| format!("{call}: {NOT_OPENED} {at}"));
    opened.chain(held).collect()
}
