//! The length of a trace in time: whole nanoseconds, and the picoseconds left over. It is summed up with
//! a carry and nothing is divided; each answer is held to the paper's sentence.

use crate::judge::LONGEST;
use crate::sheet::Sheet;

/// The picoseconds of a nanosecond.
const NANOSECOND: u64 = 1_000;

/// Whole nanoseconds and the picoseconds left over.
#[derive(Clone, Copy, Debug, Default, PartialEq, Eq)]
pub struct Time {
    pub nanoseconds: u64,
    pub rest: u64,
}

impl Time {
    /// A time of picoseconds beside nanoseconds, each full nanosecond carried over.
    fn carried(mut nanoseconds: u64, mut rest: u64) -> Time {
        while rest >= NANOSECOND {
            rest -= NANOSECOND;
            nanoseconds += 1;
        }
        Time { nanoseconds, rest }
    }

    /// The sum of two times.
    fn plus(self, other: Time) -> Time {
        Time::carried(self.nanoseconds + other.nanoseconds, self.rest + other.rest)
    }

    /// The time so many times over: bit by bit of the count from the top, the sum is doubled, and where
    /// the bit is set the time is added once.
    fn times(self, count: u64) -> Time {
        let bits = (0..u64::BITS).rev().map(|bit| count >> bit & 1);
        bits.fold(Time::default(), |sum, bit| match bit {
            0 => sum.plus(sum),
            _ => sum.plus(sum).plus(self),
        })
    }

    /// Whether nanoseconds times 1,000 plus the rest is so many picoseconds, and the rest below 1,000.
    fn makes(&self, picoseconds: u64) -> bool {
        self.nanoseconds * NANOSECOND + self.rest == picoseconds && self.rest < NANOSECOND
    }
}

/// The length in time of a trace of so many words: the sheet's refusals, then 32 for too many, then the
/// period so many times over.
pub fn length(sheet: &Sheet, count: u64) -> Result<Time, u32> {
    if let Some(number) = sheet.refusal() {
        return Err(number);
    }
    if count > LONGEST.into() {
        return Err(32);
    }
    let period = u64::from(sheet.period);
    let time = Time::carried(0, period).times(count);
    assert!(time.makes(count * period), "{count}: {time:?}");
    Ok(time)
}
