//! A trace, limits, and the verdicts that the papers give on the sheets in them.

use super::draw::inside;
use crate::both::Both;
use crate::coverage::Coverage;
use crate::judge::{judge, Verdict};
use crate::limits::Limits;
use crate::random::Random;
use crate::sheet::Sheet;
use crate::suites::by_wiring;
use crate::wiring;

/// Where in the limits a trace is in breach, from most sheets to none.
pub const WHERE: [&str; 4] = [
    "on every sheet",
    "on all but one end",
    "at one end alone",
    "on no sheet",
];

/// Sheets tried between the corners.
const BETWEEN: u32 = 6;

/// A case, whose name tells the rule and where it is broken.
pub struct Case {
    pub name: String,
    pub limits: Limits,
    pub words: Vec<u32>,
    pub verdict: Box<dyn Fn(&Sheet) -> Verdict>,
}

impl Case {
    /// Holds the reference's verdicts to the case's, on every corner and on some sheets between, and
    /// counts the case.
    pub fn settle(&self, random: &Random, coverage: &mut Coverage) {
        let between = (0..BETWEEN).map(|_| inside(random, &self.limits));
        for sheet in self.limits.corners().into_iter().chain(between) {
            let verdict = judge::<Both>(&sheet, &self.words);
            assert_eq!(
                verdict,
                (self.verdict)(&sheet),
                "{} on {sheet:?}",
                self.name
            );
        }
        let banks = wiring::name(self.limits.least.wiring);
        coverage.meet(&format!("{}, {banks}", self.name));
    }
}

/// A breach at the last of so many words if it stands, or else accepted.
pub fn at_the_last(stands: bool, number: u32, length: usize) -> Verdict {
    let clock = length as u32 - 1;
    match stands {
        true => Verdict::Breach { clock, number },
        false => Verdict::Accepted,
    }
}

/// The name of a case in which one part of a rule decides.
pub fn name(part: &str, place: &str) -> String {
    format!("in breach {place}: {part}")
}

/// Names of such cases wherever they are in breach.
pub fn everywhere(part: &str) -> Vec<String> {
    WHERE.map(|place| by_wiring(&name(part, place))).concat()
}
