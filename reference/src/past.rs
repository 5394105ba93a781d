//! What the rules need of the words before a clock, kept in one of several ways.

use crate::phase::Phase;
use crate::sheet::Sheet;

/// The words up to a clock, able to judge the word at that clock.
pub trait Past: Clone {
    /// Before clock 0.
    fn fresh() -> Self;
    /// The clock of the next word.
    fn clock(&self) -> u32;
    /// What the next word meets.
    fn phase(&self) -> Phase;
    /// The lowest rule that the word would break at this clock, the words before having kept all.
    fn lowest(&self, sheet: &Sheet, word: u32) -> Option<u32>;
    /// Takes the word in.
    fn push(&mut self, sheet: &Sheet, word: u32);
    /// Whether an extended MRS word stands before.
    fn extended_stands(&self) -> bool;
    /// Whether a regular MRS word stands before.
    fn regular_stands(&self) -> bool;
    /// Whether a second REF word stands before.
    fn second_ref_stands(&self) -> bool;
    /// The clock of the last REF word before.
    fn last_ref(&self) -> Option<u32>;
    /// The names of the events remembered that do not stand before the clock.
    fn late_events(&self) -> Vec<&'static str>;

    /// Whether the word before opened a pair.
    fn pair_open(&self) -> bool {
        matches!(self.phase(), Phase::Open(_))
    }

    /// Whether the two words of a pair, put out from this clock on, would break nothing.
    fn admits(&self, sheet: &Sheet, (first, second): (u32, u32)) -> bool {
        if self.lowest(sheet, first).is_some() {
            return false;
        }
        let mut after = self.clone();
        after.push(sheet, first);
        after.lowest(sheet, second).is_none()
    }
}
