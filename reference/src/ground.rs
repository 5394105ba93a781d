//! Refusal 19: the grounds on which a state is one that no calls make from a fresh one.

use crate::judge::LONGEST;
use crate::past::Past;
use crate::phase::Phase;
use crate::sheet::Sheet;

/// A ground by its name.
pub type Ground = &'static str;

/// The clock is above the last one.
pub const LATE_CLOCK: Ground = "clock";
/// A pair is open at clock 0, so that its first word would stand before all clocks.
pub const OPEN_AT_0: Ground = "pair open at clock 0";
/// PD was low, or the first wake-up word stood, in a word before all clocks.
pub const ASLEEP_AT_0: Ground = "asleep at clock 0";
pub const WAKE_UP_AT_0: Ground = "wake-up word due at clock 0";
/// The first wake-up word stood at clock 0, so that the low word would stand before all clocks.
pub const WAKE_UP_AT_1: Ground = "wake-up word due at clock 1";
/// More requests wait than there are places.
pub const TOO_MANY: Ground = "more than sixteen wait";
/// The open pair is that of the request at a place where none waits.
pub const NO_REQUEST: Ground = "open pair of no request";

/// The grounds that a checker and a controller have in common: the clock and the events.
pub fn common<P: Past>(past: &P) -> Vec<Ground> {
    let mut grounds = past.late_events();
    if past.clock() > LONGEST {
        grounds.push(LATE_CLOCK);
    }
    grounds
}

/// What a checker meets remembers one word before its clock, or two, that no clock can hold.
pub fn of_phase(phase: Phase, clock: u32) -> Option<Ground> {
    match (phase, clock) {
        (Phase::Open(_), 0) => Some(OPEN_AT_0),
        (Phase::PowerDown, 0) => Some(ASLEEP_AT_0),
        (Phase::WakeUp, 0) => Some(WAKE_UP_AT_0),
        (Phase::WakeUp, 1) => Some(WAKE_UP_AT_1),
        _ => None,
    }
}

/// What every call tests of a state before all else: the sheet's refusals, then 19.
pub fn refusal(sheet: &Sheet, grounds: impl Fn() -> Vec<Ground>) -> Option<u32> {
    let unsound = || (!grounds().is_empty()).then_some(19);
    sheet.refusal().or_else(unsound)
}
