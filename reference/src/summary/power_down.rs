//! Rule 2 by the newest events: when PD may go low.

use super::{Summary, MODE, READ, REFS, WRITE};
use crate::past::Past;
use crate::phase::Phase;
use crate::sheet::Sheet;
use crate::word::{high, CS, PD};

impl Summary {
    /// Whether PD is low in the word and was not low in the one before.
    pub fn goes_low(&self, word: u32) -> bool {
        !high(word, PD) && self.phase() != Phase::PowerDown
    }

    /// The grounds on which a word that goes low may not do so.
    pub fn barred(&self, sheet: &Sheet, word: u32) -> impl Iterator<Item = &'static str> {
        let phase = self.phase();
        // First words are a clock before the closing words, whose clocks are kept.
        let began_within = |event, spacing: u32| self.within(event, spacing - 1);
        let grounds = [
            ("pair open", matches!(phase, Phase::Open(_))),
            ("wake-up word due", phase == Phase::WakeUp),
            ("CS low", !high(word, CS)),
            ("RC after a read", began_within(READ, sheet.rc())),
            ("RC after a write", began_within(WRITE, sheet.rc())),
            ("RSC", began_within(MODE, sheet.rsc)),
            ("REFC", began_within(REFS, sheet.refc)),
            ("read data", self.within(READ, sheet.cl + sheet.bl / 2)),
            ("write data", self.within(WRITE, sheet.wl() + 2)),
        ];
        let standing = grounds.into_iter().filter(|(_, stands)| *stands);
        standing.map(|(name, _)| name)
    }
}
