//! A trace handed in as bytes, little-endian words: the number that the exam site gets for it, and
//! the line that the marker program prints.

use crate::judge::{judge, Verdict, LONGEST};
use crate::past::Past;
use crate::sheet::{Sheet, SHEET_E};

/// The most bytes that the marker program takes.
pub const LONGEST_MARKED: usize = 65_536;

/// The words of bytes whose number is a multiple of four.
fn words(bytes: &[u8]) -> Vec<u32> {
    let words = bytes.chunks_exact(4);
    words
        .map(|b| u32::from_le_bytes(b.try_into().unwrap()))
        .collect()
}

/// The exam site's refusal for so many bytes on a sheet: the sheet's, then 29, then 24.
pub fn site_refusal(sheet: &Sheet, length: usize) -> Option<u32> {
    if let Some(number) = sheet.refusal() {
        return Some(number);
    }
    if !length.is_multiple_of(4) {
        return Some(29);
    }
    if length / 4 > LONGEST as usize {
        return Some(24);
    }
    None
}

/// The exam site's one number: 0 accepted, the refusal, or the clock times 64 plus the breach.
pub fn site_number<P: Past>(sheet: &Sheet, bytes: &[u8]) -> u32 {
    if let Some(number) = site_refusal(sheet, bytes.len()) {
        return number;
    }
    match judge::<P>(sheet, &words(bytes)) {
        Verdict::Accepted => 0,
        Verdict::Breach { clock, number } => clock * 64 + number,
    }
}

/// The marker program's line on sheet E: 25 too many bytes, then 29 no multiple of four, then the
/// verdict.
pub fn marker_line<P: Past>(bytes: &[u8]) -> String {
    if bytes.len() > LONGEST_MARKED {
        return "refused 25\n".to_string();
    }
    if !bytes.len().is_multiple_of(4) {
        return "refused 29\n".to_string();
    }
    match judge::<P>(&SHEET_E, &words(bytes)) {
        Verdict::Accepted => format!("accepted {}\n", bytes.len() / 4),
        Verdict::Breach { clock, number } => format!("breach {clock} {number}\n"),
    }
}
