//! Rules 2 and 13: when PD may go low, and the two wake-up words.

use super::{Closed, History, Row};
use crate::pair::Kind;
use crate::sheet::Sheet;
use crate::word::{high, CS, PD};

impl History {
    /// How many clocks before this one PD was low last; none if it never was.
    pub(super) fn clocks_since_low(&self) -> Option<u32> {
        self.last_low.map(|low| self.clock - low)
    }

    /// Whether a pair is not open, and PD was low last so many clocks before.
    fn low_before(&self, clocks: u32) -> bool {
        self.open.is_none() && self.clocks_since_low() == Some(clocks)
    }

    /// Whether PD is low in the word and was not low in the one before.
    pub(super) fn goes_low(&self, word: u32) -> bool {
        !high(word, PD) && !self.low_before(1)
    }

    /// Rule 2, of a word that goes low: its parts are the grounds on which that is not permitted.
    pub(super) fn going_low_rules(&self, sheet: &Sheet, word: u32) -> [Row; 9] {
        let k = self.clock;
        let earlier = |sort: &dyn Fn(&Closed) -> bool| self.pairs.iter().any(sort);
        let began = |kind, spacing| earlier(&|p: &Closed| p.kind == kind && k - p.start < spacing);
        let lal =
            |kind, spacing| earlier(&|p: &Closed| p.kind == kind && k - (p.start + 1) < spacing);
        let mode = |p: &Closed| p.kind.is_mode() && k - p.start < sheet.rsc;
        [
            (2, "pair open", self.open.is_some()),
            (2, "wake-up word due", self.low_before(2)),
            (2, "CS low", !high(word, CS)),
            (2, "RC after a read", began(Kind::Read, sheet.rc())),
            (2, "RC after a write", began(Kind::Write, sheet.rc())),
            (2, "RSC", earlier(&mode)),
            (2, "REFC", began(Kind::Refresh, sheet.refc)),
            (2, "read data", lal(Kind::Read, sheet.cl + sheet.bl / 2)),
            (2, "write data", lal(Kind::Write, sheet.wl() + 2)),
        ]
    }

    /// Rule 13: the first high word after a low one, and the one after it, have CS high.
    pub(super) fn wake_up_rules(&self, word: u32) -> [Row; 2] {
        let opens = high(word, PD) && !high(word, CS);
        [
            (13, "first wake-up word", opens && self.low_before(1)),
            (13, "second wake-up word", opens && self.low_before(2)),
        ]
    }
}
