//! What two sheets have to agree in: where one such field alone differs, a trace that the first accepts
//! is in breach on the second. Short traces whose verdicts the papers give.

use crate::both::Both;
use crate::coverage::Coverage;
use crate::judge::{judge, Verdict};
use crate::pair::Kind;
use crate::random::Random;
use crate::sheet::{least_period, Sheet, GREATEST_PERIOD};
use crate::suites::ba2::{closing, two_reads};
use crate::suites::trace::Trace;
use crate::word::a;

/// What alone is different on the second sheet, and the breach that is then at the last word.
type Condition = (&'static str, u32);

const CL: Condition = ("another CL", 4);
const BL: Condition = ("another BL", 4);
const ORGANISATION: Condition = ("by 16 in place of 8", 5);
const LONGER: Condition = ("a longer period", 3);
const SHORTER: Condition = ("a shorter period", 12);
const WIRING: Condition = ("four banks in place of eight", 7);

/// Periods so far apart give other figures D and W.
const APART: u32 = 30;

/// A condition that does not hold, both sheets and a trace.
type Case = (Condition, [Sheet; 2], Vec<u32>);

/// The name of a case.
fn name((what, number): Condition) -> String {
    format!("accepted, then breach {number}: {what}")
}

/// What the cases must meet.
pub fn promised() -> Vec<String> {
    let conditions = [CL, BL, ORGANISATION, LONGER, SHORTER, WIRING];
    conditions.map(name).to_vec()
}

/// All cases whose first sheet is this one, or this one at another period, each handed to `judged`.
pub fn each(
    random: &Random,
    part: &Sheet,
    coverage: &mut Coverage,
    judged: &mut dyn FnMut([Sheet; 2], &[u32]),
) {
    let cases = [
        modes(random, part),
        periods(random, part),
        pins(random, part),
    ];
    for (condition, sheets, words) in cases.concat() {
        let clock = words.len() as u32 - 1;
        let number = condition.1;
        let wanted = [Verdict::Accepted, Verdict::Breach { clock, number }];
        let verdicts = sheets.map(|sheet| judge::<Both>(&sheet, &words));
        assert_eq!(verdicts, wanted, "{condition:?} on {sheets:?}");
        coverage.meet(&name(condition));
        judged(sheets, &words);
    }
}

/// A regular mode carries CL and BL.
fn modes(random: &Random, part: &Sheet) -> Vec<Case> {
    let mode = || {
        let trace = Trace::new(*part);
        trace.words_of(random, Kind::Regular, 0).to_vec()
    };
    let others = [3, 4, 5].into_iter().filter(|&cl| cl != part.cl);
    let of_cl = others.map(|cl| (CL, [*part, Sheet { cl, ..*part }], mode()));
    let bl = if part.bl == 4 { 2 } else { 4 };
    let of_bl = (BL, [*part, Sheet { bl, ..*part }], mode());
    of_cl.chain([of_bl]).collect()
}

/// A longer period has a smaller D, a shorter one a larger W.
fn periods(random: &Random, part: &Sheet) -> Vec<Case> {
    let least = least_period(part.grade, part.cl).expect("a part");
    let period = random.between(least, GREATEST_PERIOD - APART);
    let short = Sheet { period, ..*part };
    let period = random.between(period + APART, GREATEST_PERIOD);
    let long = Sheet { period, ..*part };
    let mut overdue = refreshes(random, short, 1);
    overdue.idle_until(1 + long.d() + 2);
    let crowded = refreshes(random, long, 9);
    vec![
        (LONGER, [short, long], overdue.words),
        (SHORTER, [long, short], crowded.words),
    ]
}

/// So many refreshes, as close as the sheet allows.
fn refreshes(random: &Random, sheet: Sheet, count: u32) -> Trace {
    let mut trace = Trace::new(sheet);
    for _ in 0..count {
        trace.put_kind(random, Kind::Refresh, &mut Coverage::default());
    }
    trace
}

/// The pins whose meaning hangs on the organisation and on the wiring.
fn pins(random: &Random, part: &Sheet) -> Vec<Case> {
    let mut cases = Vec::new();
    if part.org == 8 && part.bl == 4 {
        let upper_reserved = closing(random, part, Kind::Write, 0, a(12) | a(11));
        let by_16 = Sheet { org: 16, ..*part };
        cases.push((ORGANISATION, [*part, by_16], upper_reserved));
    }
    if part.wiring == 8 {
        let of_four = Sheet { wiring: 4, ..*part };
        let reads = two_reads(random, part, part.rc() - 1);
        cases.push((WIRING, [*part, of_four], reads));
    }
    cases
}
