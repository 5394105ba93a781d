//! A small deterministic generator (splitmix64), so that a printed seed gives the same cases again.

use std::cell::Cell;

/// The generator; shared borrows draw from it, so that draws can stand inside calls.
pub struct Random(Cell<u64>);

impl Random {
    /// A generator from its seed.
    pub fn new(seed: u64) -> Random {
        Random(Cell::new(seed))
    }

    /// The next 64 bits.
    pub fn next64(&self) -> u64 {
        let mut z = self.0.get().wrapping_add(0x9E37_79B9_7F4A_7C15);
        self.0.set(z);
        z = (z ^ (z >> 30)).wrapping_mul(0xBF58_476D_1CE4_E5B9);
        z = (z ^ (z >> 27)).wrapping_mul(0x94D0_49BB_1331_11EB);
        z ^ (z >> 31)
    }

    /// The next 32 bits.
    pub fn bits(&self) -> u32 {
        (self.next64() >> 32) as u32
    }

    /// A number below n; n is not 0.
    pub fn below(&self, n: u32) -> u32 {
        ((self.bits() as u64 * n as u64) >> 32) as u32
    }

    /// A number from low to high, both included.
    pub fn between(&self, low: u32, high: u32) -> u32 {
        low + self.below(high - low + 1)
    }

    /// True once in n times.
    pub fn once_in(&self, n: u32) -> bool {
        self.below(n) == 0
    }

    /// One of the values.
    pub fn pick<T: Copy>(&self, values: &[T]) -> T {
        values[self.below(values.len() as u32) as usize]
    }
}
