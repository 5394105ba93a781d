//! A walk over a trace: the examiner beside the words, of which each move takes the next.

use crate::checker::{Checker, Step};
use crate::past::Past;
use crate::sheet::Sheet;

/// The words, and the examiner at the clock of the next of them.
pub struct Walk<'a, P> {
    words: &'a [u32],
    pub checker: Checker<P>,
}

/// What a move comes to; none where no word is left.
pub type Move = Option<Step>;

impl<'a, P: Past> Walk<'a, P> {
    /// A walk before the first word; making one refuses nothing.
    pub fn fresh(sheet: Sheet, words: &'a [u32]) -> Walk<'a, P> {
        Walk::at(Checker::fresh(sheet), words)
    }

    /// A walk that has reached a checker's clock.
    pub fn at(checker: Checker<P>, words: &'a [u32]) -> Walk<'a, P> {
        Walk { words, checker }
    }

    /// Examines one more word: the sheet's refusals, 19, then the end, then what a step says.
    pub fn advance(&mut self) -> Move {
        if let Some(number) = self.checker.refusal() {
            return Some(Step::Refused(number));
        }
        let next = self.words.get(self.checker.past.clock() as usize)?;
        Some(self.checker.step(*next))
    }
}
