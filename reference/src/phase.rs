//! What the next word meets: nothing, an open pair, power down, or a wake-up word that is due.

use crate::word::{high, CS, DESL, FN, PD};

/// What the next word meets. It is one of these, so nothing is both asleep and in a pair.
#[derive(Clone, Copy, Debug, PartialEq, Eq)]
pub enum Phase {
    /// Nothing: PD is high and no pair is open.
    Standby,
    /// An open pair with this first word.
    Open(u32),
    /// The word before had PD low. A high one would be the first of the two wake-up words.
    PowerDown,
    /// The word before was the first wake-up word, so one is still due.
    WakeUp,
}

impl Phase {
    /// The phase that the one number of a state stands for, whatever its other bits are.
    pub fn of(number: u32) -> Phase {
        match (high(number, CS), high(number, PD), high(number, FN)) {
            (false, _, _) => Phase::Open(number),
            (true, false, _) => Phase::PowerDown,
            (true, true, true) => Phase::WakeUp,
            (true, true, false) => Phase::Standby,
        }
    }

    /// The number that a state keeps for it after a word.
    pub fn number(self) -> u32 {
        match self {
            Phase::Standby => DESL,
            Phase::Open(first) => first,
            Phase::PowerDown => CS,
            Phase::WakeUp => PD | CS | FN,
        }
    }
}
