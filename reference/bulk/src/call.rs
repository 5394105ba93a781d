//! Calls of the archive's functions on lent words.

use reference::limits::Limits;
use reference::sheet::{Sheet, NUMBERS};

/// A call that takes a sheet and a trace, and answers with one number.
type OnSheet = unsafe extern "C" fn(sheet: *const u32, words: *const u32, length: usize) -> u64;

mod archive {
    extern "C" {
        pub fn bulk_check(sheet: *const u32, words: *const u32, length: usize) -> u64;
        pub fn bulk_walk(sheet: *const u32, words: *const u32, length: usize) -> u64;
        pub fn bulk_walk_again(sheet: *const u32, words: *const u32, length: usize) -> u64;
        pub fn bulk_limits(
            least: *const u32,
            greatest: *const u32,
            words: *const u32,
            length: usize,
            shown: *mut u32,
        ) -> u64;
        pub fn bulk_count(
            sheet: *const u32,
            words: *const u32,
            length: usize,
            places: *mut u32,
            room: usize,
        ) -> u32;
        pub fn bulk_duration(sheet: *const u32, count: usize, places: *mut u32) -> u32;
    }
}

/// Makes a call on a lent trace.
fn on_sheet(call: OnSheet, sheet: &Sheet, words: &[u32]) -> u64 {
    let numbers = sheet.numbers();
    // SAFETY: the sheet's numbers and the words can be read while they are lent.
    unsafe { call(numbers.as_ptr(), words.as_ptr(), words.len()) }
}

/// The whole check: 0 accepted, a refusal, or a breach.
pub fn check(sheet: &Sheet, words: &[u32]) -> u64 {
    on_sheet(archive::bulk_check, sheet, words)
}

/// What ends a fresh walk: 0 at its end, a refusal, or a breach.
pub fn walk(sheet: &Sheet, words: &[u32]) -> u64 {
    on_sheet(archive::bulk_walk, sheet, words)
}

/// The answer of one advance more after that.
pub fn walk_again(sheet: &Sheet, words: &[u32]) -> u64 {
    on_sheet(archive::bulk_walk_again, sheet, words)
}

/// The check on every sheet in the limits: 0 always, a refusal, or a breach on the sheet shown.
pub fn limits(limits: &Limits, words: &[u32], shown: &mut [u32; NUMBERS]) -> u64 {
    let (least, greatest) = (limits.least.numbers(), limits.greatest.numbers());
    let (least, greatest) = (least.as_ptr(), greatest.as_ptr());
    let (start, length) = (words.as_ptr(), words.len());
    // SAFETY: the numbers and the words can be read, and eleven places written, while they are lent.
    unsafe { archive::bulk_limits(least, greatest, start, length, shown.as_mut_ptr()) }
}

/// The tally, its six counts into the places if there are as many: 0 or a refusal.
pub fn count(sheet: &Sheet, words: &[u32], places: &mut [u32]) -> u32 {
    let numbers = sheet.numbers();
    let (start, length) = (words.as_ptr(), words.len());
    let (into, room) = (places.as_mut_ptr(), places.len());
    // SAFETY: the sheet's numbers and the words can be read, and the places written, while they are lent.
    unsafe { archive::bulk_count(numbers.as_ptr(), start, length, into, room) }
}

/// The length in time of so many words, into two places: 0 or a refusal.
pub fn time(sheet: &Sheet, count: usize, places: &mut [u32; 2]) -> u32 {
    let numbers = sheet.numbers();
    // SAFETY: the sheet's numbers can be read, and two places written, while they are lent.
    unsafe { archive::bulk_duration(numbers.as_ptr(), count, places.as_mut_ptr()) }
}
