//! The comparison of the check on every sheet in limits, where any sheet with its breach is right.

use crate::answers::{breach_of, limits_number, meaning};
use crate::call;
use crate::run::{fail, on, Run, UNTOUCHED};
use reference::counts::LONGEST_TALLY;
use reference::limits::{Limits, Shown};
use reference::past::Past;
use reference::sheet::{Sheet, NUMBERS};

const CALL: &str = "limits";

impl Run {
    /// Compares the check on every sheet in the limits. A sheet that is shown must be in them and have the
    /// breach told; otherwise no number of one is written. Words are left as they were; those of the
    /// longest traces are not compared.
    pub fn limits<P: Past>(&mut self, limits: &Limits, words: &[u32], length: &str) {
        let before = (words.len() <= LONGEST_TALLY).then(|| words.to_vec());
        let wanted = limits_number::<P>(limits, words);
        // A place on either side of the eleven shows what is written beside them.
        let mut room = [UNTOUCHED; NUMBERS + 2];
        let [_, shown @ .., _] = &mut room;
        let got = call::limits(limits, words, shown);
        let sheet = *shown;
        let (ours, theirs) = (told(limits, wanted), format!("{} {room:?}", meaning(got)));
        if let Some(fault) = fault::<P>(limits, words, [wanted, got], sheet) {
            fail(CALL, words, &ours, &format!("{theirs}: {fault}"));
        }
        if [room[0], room[NUMBERS + 1]] != [UNTOUCHED; 2] {
            fail(CALL, words, &ours, &format!("{theirs}: written beside it"));
        }
        if before.is_some_and(|before| before != words) {
            fail(CALL, words, &ours, "other words");
        }
        self.count_answer(CALL, &on(&limits.least, length), words, got);
    }
}

/// The answer and the limits in words.
fn told(limits: &Limits, answer: u64) -> String {
    let [least, greatest] = [limits.least, limits.greatest].map(|sheet| sheet.numbers());
    format!("{} from {least:?} to {greatest:?}", meaning(answer))
}

/// What is wrong with the archive's answer and with the sheet shown, if anything is.
fn fault<P: Past>(
    limits: &Limits,
    words: &[u32],
    [wanted, got]: [u64; 2],
    shown: [u32; NUMBERS],
) -> Option<String> {
    let Some((clock, number)) = breach_of(got) else {
        let untouched = shown == [UNTOUCHED; NUMBERS];
        let fault = match wanted == got {
            true => "a sheet was written",
            false => "another answer",
        };
        return (wanted != got || !untouched).then(|| fault.to_string());
    };
    if breach_of(wanted).is_none() {
        return Some("another answer".to_string());
    }
    let told = Shown {
        clock: clock as u32,
        number: number as u32,
        sheet: Sheet::from_numbers(shown),
    };
    limits.fault::<P>(words, &told)
}
