//! What the benchmark times, in several layouts: each has a copy of all code, at addresses of its own.

use crate::plain;
use reference::hand_in::site_refusal;
use reference::sheet::Sheet;

/// A call on a sheet and a lent trace.
pub type Call = fn(&Sheet, &[u8]) -> u32;

/// The calls of a layout.
pub struct Layout {
    /// The archive's check on a sheet of eight banks.
    pub fcram: Call,
    /// The plain checkers in C and in Rust.
    pub c: Call,
    pub rust: Call,
    /// All words added up, whatever the sheet.
    pub sum: Call,
}

/// The layout of a number, which its functions bear behind their names.
#[rustfmt::skip]
macro_rules! layout {
    ($number:literal) => {{
        extern "C" {
            #[link_name = concat!("fcram_check_", $number)]
            fn fcram_check(
                a: u32, b: u32, c: u32, d: u32, e: u32, f: u32, g: u32, h: u32, i: u32, j: u32,
                bytes: *const u8, length: usize,
            ) -> u32;
            #[link_name = concat!("plain_check_", $number)]
            fn plain_check(sheet: *const u32, bytes: *const u8, words: usize) -> u32;
            #[link_name = concat!("plain_sum_", $number)]
            fn plain_sum(bytes: *const u8, words: usize) -> u32;
        }
        // SAFETY of all: what is lent can be read, and has as many bytes or words as are told.
        Layout {
            fcram: |sheet, trace| {
                let [a, b, c, d, e, f, g, h, i, j] = sheet.without_wiring();
                unsafe { fcram_check(a, b, c, d, e, f, g, h, i, j, trace.as_ptr(), trace.len()) }
            },
            c: |sheet, trace| match site_refusal(sheet, trace.len()) {
                Some(number) => number,
                None => {
                    let numbers = sheet.numbers();
                    unsafe { plain_check(numbers.as_ptr(), trace.as_ptr(), trace.len() / 4) }
                }
            },
            rust: plain::check::<{ 16 * $number }>,
            sum: |_, trace| unsafe { plain_sum(trace.as_ptr(), trace.len() / 4) },
        }
    }};
}

/// All layouts, as many as the build made.
pub static LAYOUTS: &[Layout] = &include!(concat!(env!("OUT_DIR"), "/layouts.rs"));
