//! The pins of a word: one bit each, high = 1.

/// The place of BA0; the bank is the bits from here on, three or two by the wiring.
pub const BANK_SHIFT: u32 = 14;
pub const BA0: u32 = 1 << 14;
pub const BA2: u32 = 1 << 16;
pub const FN: u32 = 1 << 17;
pub const CS: u32 = 1 << 18;
pub const PD: u32 = 1 << 19;

/// Address pin A`n`.
pub const fn a(n: u32) -> u32 {
    1 << n
}

/// Whether a pin of the word is high.
pub fn high(word: u32, pin: u32) -> bool {
    word & pin != 0
}

/// The number on so many pins of the word, its lowest bit at a place.
pub fn number(word: u32, place: u32, width: u32) -> u32 {
    (word >> place) & ((1 << width) - 1)
}
