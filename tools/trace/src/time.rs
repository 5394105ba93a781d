//! How long a trace lasts.

use std::ops::RangeInclusive;

/// The institute's own period, in picoseconds.
pub const PERIOD: u32 = 5000;

/// The periods that a sheet may have, whatever its grade and CL.
pub const PERIODS: RangeInclusive<u32> = 3750..=8500;

/// The most words that are timed, and that are checked.
const LONGEST_TIMED: usize = 16_777_216;

/// How long so many words last, a period each.
pub fn lasts(words: usize, period: u32) -> String {
    if words > LONGEST_TIMED {
        return format!("too long to be timed: more than {LONGEST_TIMED} words");
    }
    let picoseconds = words as u64 * u64::from(period);
    let (whole, rest) = (picoseconds / 1000, picoseconds % 1000);
    format!("lasts {whole} ns and {rest} ps, at {period} ps a clock")
}
