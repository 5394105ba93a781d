//! The word at each clock: one bit a pin, high = 1.

/// A0 to A13, which carry the row on a first word, and their number.
pub const ROW: u32 = 0x3FFF;
pub const ROW_BITS: u32 = 14;
/// The place of BA0; the bank pins are the three bits from here on.
pub const BANK_SHIFT: u32 = 14;
pub const BANK: u32 = 7 << BANK_SHIFT;
pub const BA0: u32 = 1 << 14;
pub const BA1: u32 = 1 << 15;
pub const BA2: u32 = 1 << 16;
pub const FN: u32 = 1 << 17;
pub const CS: u32 = 1 << 18;
pub const PD: u32 = 1 << 19;
/// The word of a clock without a command, as it is written.
pub const DESL: u32 = PD | CS;

/// Address pin A`n`.
pub const fn a(n: u32) -> u32 {
    1 << n
}

/// Whether any pin of the mask is high.
pub fn high(word: u32, pin: u32) -> bool {
    word & pin != 0
}

/// Whether the word opens a pair if none is open: PD high and CS low.
pub fn opens(word: u32) -> bool {
    word & (PD | CS) == PD
}

/// Whether a bit above PD is set, which is no pin at all.
pub fn stray_bit(word: u32) -> bool {
    word >> 20 != 0
}
