//! The sheet's wiring: what the bank pins of a first word carry. With eight banks they carry the bank.
//! With four, BA0 and BA1 do, and BA2 is driven as A14, the top bit of the row. Of accepted sheets.

use crate::sheet::Sheet;
use crate::word::{high, BA0, BA1, BA2, BANK_SHIFT, ROW, ROW_BITS};

/// The wirings there are, as the numbers of their banks.
pub const WIRINGS: [u32; 2] = [8, 4];

/// The name of a wiring, for counting.
pub fn name(wiring: u32) -> &'static str {
    match wiring {
        8 => "eight banks",
        4 => "four banks",
        _ => "no such wiring",
    }
}

/// Whether BA2 is a pin of the row.
fn four(sheet: &Sheet) -> bool {
    sheet.wiring == 4
}

/// The greatest bank.
pub fn greatest_bank(sheet: &Sheet) -> u32 {
    if four(sheet) {
        3
    } else {
        7
    }
}

/// The greatest row.
pub fn greatest_row(sheet: &Sheet) -> u32 {
    if four(sheet) {
        32_767
    } else {
        16_383
    }
}

/// The bank that a first word names.
pub fn bank(sheet: &Sheet, first: u32) -> u32 {
    let pins = if four(sheet) {
        BA0 | BA1
    } else {
        BA0 | BA1 | BA2
    };
    (first & pins) >> BANK_SHIFT
}

/// The row that a first word names.
pub fn row(sheet: &Sheet, first: u32) -> u32 {
    let top = four(sheet) && high(first, BA2);
    (first & ROW) | (top as u32) << ROW_BITS
}

/// The pins of a first word that name a bank and a row within their ranges.
pub fn pins(sheet: &Sheet, bank: u32, row: u32) -> u32 {
    let top = if four(sheet) && row > ROW { BA2 } else { 0 };
    bank << BANK_SHIFT | top | (row & ROW)
}
