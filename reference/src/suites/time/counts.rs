//! Word counts: at edges that all sheets share, at those of a sheet's period, and at random.

use super::meet::{RESTS, SIZES};
use crate::judge::LONGEST;
use crate::random::Random;

const MAX: u32 = u32::MAX;

/// Counts at the edges that all sheets share.
pub const EDGES: [u32; 8] = [0, 1, 2, LONGEST - 1, LONGEST, LONGEST + 1, LONGEST + 2, MAX];

/// The picoseconds of a nanosecond. With so many words more, the rest is the same.
const NANOSECOND: u32 = 1_000;

/// Counts for a sheet with a period: all edges, each rest, and some at random.
pub fn at(random: &Random, period: u32) -> Vec<u32> {
    let drawn = [(); 3].map(|()| some_count(random));
    [
        &EDGES[..],
        &around_sizes(period),
        &with_rests(random, period),
        &drawn,
    ]
    .concat()
}

/// Counts on either side of where the product passes what a narrower number holds.
fn around_sizes(period: u32) -> Vec<u32> {
    let last_below = |(size, _)| ((size - 1) / u64::from(period)) as u32;
    let around = |last| [last - 1, last, last + 1, last + 2];
    SIZES.into_iter().map(last_below).flat_map(around).collect()
}

/// A short count and a long one for each rest that the period can leave.
fn with_rests(random: &Random, period: u32) -> Vec<u32> {
    let mut counts = Vec::new();
    for rest in RESTS {
        let leaves = |count: &u32| count * period % NANOSECOND == rest as u32;
        if let Some(short) = (1..=NANOSECOND).find(leaves) {
            let more = random.below((LONGEST - short) / NANOSECOND + 1);
            counts.extend([short, short + NANOSECOND * more]);
        }
    }
    counts
}

/// A count up to the limit.
pub fn allowed(random: &Random) -> u32 {
    let (short, long) = (random.below(1_000), random.below(LONGEST + 1));
    random.pick(&[0, 1, LONGEST - 1, LONGEST, short, long])
}

/// A count above the limit.
pub fn above(random: &Random) -> u32 {
    let any = random.between(LONGEST + 1, MAX);
    random.pick(&[LONGEST + 1, LONGEST + 2, LONGEST << 1, 1 << 31, MAX, any])
}

/// A count at random, short or long.
pub fn some_count(random: &Random) -> u32 {
    match random.below(6) {
        0 => allowed(random),
        1 => above(random),
        2 => random.below(LONGEST + 1),
        // Of any number of bits.
        _ => random.bits() >> random.below(32),
    }
}
