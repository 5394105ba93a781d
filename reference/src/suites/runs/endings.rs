//! What stands behind a run, with the breach at the last word of all: words that are wrong, the trace's end,
//! and the last clock that rule 3 allows.

use crate::random::Random;
use crate::suites::sleep::{desl_word, low_word, BELOW_PD};
use crate::word::{a, CS, FN, PD};

/// What stands behind a run.
pub struct Ending {
    pub name: &'static str,
    /// How many clocks behind the run's last word the last one is that rule 3 allows; none where that
    /// is far away.
    pub limit: Option<i32>,
    pub breach: Option<u32>,
    /// The words behind the run. The last word of all is the one in breach.
    pub words: Vec<u32>,
}

/// An ending far from the limit of rule 3.
fn far(name: &'static str, words: &[u32], breach: Option<u32>) -> Ending {
    let words = words.to_vec();
    Ending {
        name,
        limit: None,
        breach,
        words,
    }
}

/// An ending with the limit of rule 3 so many clocks behind the run's last word.
fn near(name: &'static str, limit: i32, words: &[u32], breach: Option<u32>) -> Ending {
    let limit = Some(limit);
    Ending {
        limit,
        ..far(name, words, breach)
    }
}

/// A word that opens a pair, or would.
fn opening_word(random: &Random) -> u32 {
    PD | (random.bits() & BELOW_PD & !CS)
}

/// A mode with A7 high, which no mode has.
fn wrong_mode(random: &Random) -> [u32; 2] {
    [opening_word(random) | FN, opening_word(random) | a(7)]
}

/// What stands behind runs of DESL.
pub fn behind_desl(random: &Random) -> Vec<Ending> {
    let (desl, low, opens) = (desl_word(random), low_word(random), opening_word(random));
    let stray = 1 << random.between(20, 31);
    vec![
        far("the end", &[], None),
        far("a stray bit", &[desl | stray], Some(1)),
        far("PD low with CS low", &[low & !CS], Some(2)),
        far("a wrong mode", &wrong_mode(random), Some(4)),
        near("the limit before its last word", -1, &[], Some(3)),
        near("the end at the limit", 0, &[], None),
        near("DESL past the limit", 0, &[desl], Some(3)),
        near("an open pair past the limit", 0, &[opens], Some(3)),
        near("a stray bit past the limit", 0, &[desl | stray], Some(1)),
        near("PD and CS low past the limit", 0, &[low & !CS], Some(2)),
        near("DESL at the limit", 1, &[desl], None),
        near("DESL at the limit and past it", 1, &[desl, desl], Some(3)),
        near("a mode over the limit", 1, &[PD | FN, PD], Some(3)),
    ]
}

/// What stands behind sleeps.
pub fn behind_sleep(random: &Random) -> Vec<Ending> {
    let (desl, low, opens) = (desl_word(random), low_word(random), opening_word(random));
    let (stays, stray) = (random.bits() & BELOW_PD, 1 << random.between(20, 31));
    let [first, second] = wrong_mode(random);
    vec![
        far("the end", &[], None),
        far("a stray bit", &[stays | stray], Some(1)),
        far("CS low at once", &[opens], Some(13)),
        far("CS low and a stray bit at once", &[opens | stray], Some(1)),
        far("one wake-up word", &[desl], None),
        far("CS low in the second word", &[desl, opens], Some(13)),
        far("a stray bit second", &[desl, desl | stray], Some(1)),
        far("PD low in the second word", &[desl, low], Some(2)),
        far("both wake-up words", &[desl, desl], None),
        far("another sleep", &[desl, desl, low, stays], None),
        far("a wrong mode", &[desl, desl, first, second], Some(4)),
        near("the limit before its last word", -1, &[], Some(3)),
        near("the end at the limit", 0, &[], None),
        near("PD low past the limit", 0, &[stays], Some(3)),
        near("waking past the limit", 0, &[desl], Some(3)),
        near("CS low past the limit", 0, &[opens], Some(3)),
        near("PD low at the limit", 1, &[stays], None),
        near("PD low up to it and past it", 1, &[stays; 2], Some(3)),
        near("the second word past the limit", 1, &[desl; 2], Some(3)),
        near("PD low there past the limit", 1, &[desl, low], Some(2)),
        near("the second word at the limit", 2, &[desl; 2], None),
        near("awake past the limit", 2, &[desl; 3], Some(3)),
    ]
}
