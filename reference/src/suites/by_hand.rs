//! Short traces whose verdicts the papers give: each is held to its verdict before it is handed on.

use super::{ba2, power_down};
use crate::both::Both;
use crate::coverage::Coverage;
use crate::judge::{breach, judge, Verdict};
use crate::random::Random;
use crate::sheet::Sheet;
use crate::wiring;

/// What a trace is handed to, which judges it once more.
pub type Judged<'a> = dyn FnMut(&mut Coverage, &[u32]) + 'a;

/// What the cases of BA2 and of power down on a sheet must meet.
pub fn promised(sheet: &Sheet) -> Vec<String> {
    let of_ba2 = ba2::promised(sheet.bl, sheet.wiring);
    [of_ba2, power_down::promised(sheet.wiring)].concat()
}

/// All these cases on a sheet whose RBD is below RC, each handed to `judged`.
pub fn each(random: &Random, sheet: &Sheet, coverage: &mut Coverage, judged: &mut Judged) {
    ba2::each(random, sheet, coverage, judged);
    power_down::each(random, sheet, coverage, judged);
}

/// The name of a case with its breach and the wiring.
pub fn met(name: &str, breach: Option<u32>, wiring: u32) -> String {
    let verdict = match breach {
        Some(number) => format!("breach {number}"),
        None => "accepted".to_string(),
    };
    format!("{name}: {verdict}, {}", wiring::name(wiring))
}

/// Hands on a case: its name, its breach at the last word if any, and its words.
pub fn hand_on(
    sheet: &Sheet,
    (name, number, words): (&str, Option<u32>, &[u32]),
    coverage: &mut Coverage,
    judged: &mut Judged,
) {
    let verdict = match number {
        Some(number) => breach(words.len() as u32 - 1, number),
        None => Verdict::Accepted,
    };
    assert_eq!(judge::<Both>(sheet, words), verdict, "{name} on {sheet:?}");
    coverage.meet(&met(name, number, sheet.wiring));
    judged(coverage, words);
}
