//! One comparison under way: calls the archive's functions, compares, counts.

use crate::answers::{breach_of, check_number, meaning, walk_numbers};
use crate::call;
use reference::command_line::keep;
use reference::coverage::Coverage;
use reference::past::Past;
use reference::script::bytes;
use reference::sheet::Sheet;
use reference::suites::sheets::REFUSALS;
use reference::wiring::{self, WIRINGS};
use std::process::exit;

/// What stands in a place of the counts, of a sheet or of a time before a call.
pub const UNTOUCHED: u32 = 7_777_777;

/// What was called and met so far.
#[derive(Default)]
pub struct Run {
    pub coverage: Coverage,
    pub calls: u64,
}

impl Run {
    /// Compares all calls on a trace, which is left as it was. Answers are counted by its length's name and
    /// by the wiring.
    pub fn all<P: Past>(&mut self, sheet: &Sheet, words: &[u32], length: &str) {
        let before = words.to_vec();
        self.check::<P>(sheet, words, length);
        self.walks::<P>(sheet, words, length);
        self.count(sheet, words, length);
        if before != words {
            fail(
                "all calls",
                &before,
                "the same words after them",
                "other words",
            );
        }
    }

    /// Compares the whole check.
    pub fn check<P: Past>(&mut self, sheet: &Sheet, words: &[u32], length: &str) {
        let wanted = check_number::<P>(sheet, words);
        let got = call::check(sheet, words);
        self.settle("check", &on(sheet, length), words, wanted, got);
    }

    /// Compares the walk and the advance after it.
    pub fn walks<P: Past>(&mut self, sheet: &Sheet, words: &[u32], length: &str) {
        let (stop, again) = walk_numbers::<P>(sheet, words);
        let length = on(sheet, length);
        self.settle("walk", &length, words, stop, call::walk(sheet, words));
        let got = call::walk_again(sheet, words);
        self.settle("walk again", &length, words, again, got);
    }

    /// Compares two answers and counts them. A difference ends the program.
    pub fn settle(&mut self, call: &str, length: &str, words: &[u32], wanted: u64, got: u64) {
        if wanted != got {
            fail(call, words, &meaning(wanted), &meaning(got));
        }
        self.count_answer(call, length, words, wanted);
    }

    /// Counts an answer that is right.
    pub fn count_answer(&mut self, call: &str, length: &str, words: &[u32], answer: u64) {
        self.calls += 1;
        let name = match breach_of(answer) {
            Some((clock, number)) if clock + 1 == words.len() as u64 => {
                format!("breach {number} at the last clock")
            }
            Some((_, number)) => format!("breach {number}"),
            None => meaning(answer),
        };
        self.coverage.meet(&format!("{call}, {length}: {name}"));
    }
}

/// Names of the sheet's own refusals of a call at a length, of which 34 is for a wiring that there is not.
pub fn refusals(call: &str, length: &str) -> Vec<String> {
    let name = |number, wiring| {
        let banks = wiring::name(wiring);
        format!("{call}, {length}, {banks}: refused {number}")
    };
    let of = |number| match number {
        34 => vec![name(34, 0)],
        _ => WIRINGS.map(|wiring| name(number, wiring)).to_vec(),
    };
    REFUSALS.into_iter().flat_map(of).collect()
}

/// The name of a length, with the wiring of the sheet.
pub fn on(sheet: &Sheet, length: &str) -> String {
    format!("{length}, {}", wiring::name(sheet.wiring))
}

/// Reports a difference.
pub fn report(call: &str, wanted: &str, got: &str) {
    println!("FAILED: {call}");
    println!("  reference: {wanted}");
    println!("  archive:   {got}");
}

/// Reports a difference on a trace, keeps it and ends the program.
pub fn fail(call: &str, words: &[u32], wanted: &str, got: &str) -> ! {
    report(&format!("{call} on {} words", words.len()), wanted, got);
    keep("trace", "bulk-difference.bin", &bytes(words));
    exit(1)
}
