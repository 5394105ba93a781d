//! Two rules broken at one clock, of which the relaxed sheet keeps the first: short traces whose verdicts
//! the papers give.

use super::two_sheets::with_count;
use crate::both::Both;
use crate::judge::{judge, Verdict};
use crate::pair::Kind;
use crate::random::Random;
use crate::sheet::{Sheet, COUNT_RANGES};
use crate::suites::sleep::low_word;
use crate::suites::trace::Trace;

/// The greatest RWD.
const GREATEST_RWD: u32 = COUNT_RANGES[1].1;

/// The numbers on the stricter sheet and on the relaxed one.
pub const NUMBERS: [[u32; 2]; 2] = [[2, 3], [8, 10]];

/// All cases that have this sheet for the relaxed one, each handed to `judged` with both sheets.
pub fn each(random: &Random, relaxed: &Sheet, judged: &mut dyn FnMut([Sheet; 2], &[u32])) {
    let longer_rsc = with_count(relaxed, "RSC", relaxed.rsc + 1);
    let mut cases = vec![(longer_rsc, NUMBERS[0], low_and_overdue(random, relaxed))];
    // At CL 5, RC alone takes the write out of the reach of RWD.
    if relaxed.cl < 5 {
        let longest_rwd = with_count(relaxed, "RWD", GREATEST_RWD);
        let words = write_behind_a_refresh(random, relaxed);
        cases.push((longest_rwd, NUMBERS[1], words));
    }
    for (stricter, numbers, words) in cases {
        let clock = words.len() as u32 - 1;
        let sheets = [stricter, *relaxed];
        let verdicts = sheets.map(|sheet| judge::<Both>(&sheet, &words));
        let wanted = numbers.map(|number| Verdict::Breach { clock, number });
        assert_eq!(verdicts, wanted, "on {sheets:?}");
        judged(sheets, &words);
    }
}

/// PD goes low at the first clock that rule 3 does not allow, RSC after a mode.
fn low_and_overdue(random: &Random, sheet: &Sheet) -> Vec<u32> {
    let mut trace = Trace::new(*sheet);
    let refresh = trace.words_of(random, Kind::Refresh, 0);
    trace.add(&refresh);
    let late = 1 + sheet.d() + 1;
    trace.idle_until(late - sheet.rsc);
    let mode = trace.words_of(random, Kind::Extended, 0);
    trace.add(&mode);
    trace.idle_until(late);
    trace.word(low_word(random));
    trace.words
}

/// A read, a refresh RC after it, and at once a write.
fn write_behind_a_refresh(random: &Random, sheet: &Sheet) -> Vec<u32> {
    let mut trace = Trace::new(*sheet);
    trace.make_ready(random);
    let read = trace.words_of(random, Kind::Read, 0);
    trace.add(&read);
    trace.idle_until(201 + sheet.rc());
    for kind in [Kind::Refresh, Kind::Write] {
        let words = trace.words_of(random, kind, 1);
        trace.add(&words);
    }
    trace.words
}
