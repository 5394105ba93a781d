//! The examiner word by word: a state that takes one word a step.

use crate::ground::{self, Ground};
use crate::judge::LONGEST;
use crate::past::Past;
use crate::sheet::Sheet;

/// A checker on a sheet, accepted or not.
#[derive(Clone)]
pub struct Checker<P> {
    pub sheet: Sheet,
    pub past: P,
    /// The clock and the number of the breach it recorded; number 0 is none.
    pub breach: (u32, u32),
}

/// The answer of one step.
#[derive(Clone, Copy, Debug, PartialEq, Eq)]
pub enum Step {
    Pass,
    Breach { clock: u32, number: u32 },
    Refused(u32),
}

impl<P: Past> Checker<P> {
    /// A fresh checker; making one refuses nothing.
    pub fn fresh(sheet: Sheet) -> Checker<P> {
        Checker {
            sheet,
            past: P::fresh(),
            breach: (0, 0),
        }
    }

    /// The grounds of 19; a recorded breach is none.
    pub fn grounds(&self) -> Vec<Ground> {
        let mut grounds = ground::common(&self.past);
        let clock = self.past.clock();
        if clock < 2 {
            grounds.extend(ground::of_phase(self.past.phase(), clock));
        }
        grounds
    }

    /// The refusals that come before those of the call: the sheet's, then 19.
    pub fn refusal(&self) -> Option<u32> {
        ground::refusal(&self.sheet, || self.grounds())
    }

    /// Whether a breach is recorded.
    pub fn in_breach(&self) -> bool {
        self.breach.1 != 0
    }

    /// Takes one word: the sheet's refusals, 19, then 23 in breach, then 24 at the last clock.
    pub fn step(&mut self, word: u32) -> Step {
        if let Some(number) = self.refusal() {
            return Step::Refused(number);
        }
        if self.in_breach() {
            return Step::Refused(23);
        }
        let clock = self.past.clock();
        if clock == LONGEST {
            return Step::Refused(24);
        }
        if let Some(number) = self.past.lowest(&self.sheet, word) {
            self.breach = (clock, number);
            return Step::Breach { clock, number };
        }
        self.past.push(&self.sheet, word);
        Step::Pass
    }
}
