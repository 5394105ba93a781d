//! The fast path: of the history only the newest events are kept, one clock for each.
//! Tests and comparison runs hold it against the whole history, up to some thousand pairs.

mod power_down;

use crate::pair::{self, Kind};
use crate::past::Past;
use crate::phase::Phase;
use crate::sheet::Sheet;
use crate::wiring;
use crate::word;

/// The number of events.
pub const EVENTS: usize = 21;

/// The names of the events: the first extended MRS word, and the newest word of each other kind.
#[rustfmt::skip]
pub const NAMES: [&str; EVENTS] = [
    "extended", "regular", "mode", "read", "write",
    "bank 0", "bank 1", "bank 2", "bank 3", "bank 4", "bank 5", "bank 6", "bank 7",
    "last REF", "2nd last REF", "3rd last REF", "4th last REF",
    "5th last REF", "6th last REF", "7th last REF", "8th last REF",
];

/// The places of the events; the banks and the REF words have eight from there on.
const EXTENDED: usize = 0;
const REGULAR: usize = 1;
const MODE: usize = 2;
const READ: usize = 3;
const WRITE: usize = 4;
const BANKS: usize = 5;
const REFS: usize = 13;

/// The newest events before a clock.
#[derive(Clone, Copy, Debug)]
pub struct Summary {
    clock: u32,
    /// What the next word meets: the first word of the open pair, or a word with CS high that says what
    /// else.
    first: u32,
    /// The clocks of the closing words; 0 is never, since no pair closes there.
    events: [u32; EVENTS],
}

impl Summary {
    /// The summary of any numbers, sound or not.
    pub fn of(clock: u32, first: u32, events: [u32; EVENTS]) -> Summary {
        Summary {
            clock,
            first,
            events,
        }
    }

    /// The number that says what the next word meets.
    pub fn first(&self) -> u32 {
        self.first
    }

    /// The clocks of all events.
    pub fn events(&self) -> [u32; EVENTS] {
        self.events
    }

    /// The clock of an event, if it stands.
    fn at(&self, event: usize) -> Option<u32> {
        Some(self.events[event]).filter(|&clock| clock != 0)
    }

    /// Whether an event stands less than so many clocks before this one. Closing words are as far
    /// from each other as first words.
    fn within(&self, event: usize, spacing: u32) -> bool {
        self.at(event).is_some_and(|t| self.clock - t < spacing)
    }

    /// The clocks of the REF words kept, the last one first; 0 is none.
    pub fn refs(&self) -> &[u32] {
        &self.events[REFS..]
    }

    /// The furthest REF word kept and its place, 1 being that of the last: the m-th last and m, if
    /// words led here. The paper does not speak of a state that was put with a 0 before a REF word
    /// further back; the furthest place that is not 0 counts there too.
    pub fn furthest_ref(&self) -> Option<(u32, u32)> {
        let place = self.refs().iter().rposition(|&clock| clock != 0)?;
        Some((self.refs()[place], place as u32 + 1))
    }

    /// The last clock that rule 3 allows; none where it allows all.
    pub fn refresh_limit(&self, sheet: &Sheet) -> Option<u32> {
        self.furthest_ref().map(|(r, m)| r + m * sheet.d())
    }

    /// The lowest of rules 4 to 12 that a closing word breaks.
    fn closing(&self, sheet: &Sheet, first: u32, second: u32) -> Option<u32> {
        let kind = pair::kind(first, second);
        if kind.is_mode() && !pair::mode_fields_fit(sheet, second) {
            return Some(4);
        }
        if kind == Kind::Write && pair::reserved_lane(sheet, second) {
            return Some(5);
        }
        let access = || self.access(sheet, kind, wiring::bank(sheet, first));
        let of_access = kind.is_access().then(access).flatten();
        of_access.or_else(|| self.spacing(sheet, kind))
    }

    /// The lowest of rules 6 to 8 that a read or write breaks.
    fn access(&self, sheet: &Sheet, kind: Kind, bank: u32) -> Option<u32> {
        let started = self.regular_stands() && self.second_ref_stands();
        if !started || !self.extended_stands() || self.within(EXTENDED, 200 + 1) {
            return Some(6);
        }
        if self.within(BANKS + bank as usize, sheet.rc()) {
            return Some(7);
        }
        let turned = match kind {
            Kind::Write => self.within(READ, sheet.rwd + 1),
            _ => self.within(WRITE, sheet.wrd + 1),
        };
        (turned || self.after_access(sheet.rbd)).then_some(8)
    }

    /// The lowest of rules 9 to 12 that a pair breaks.
    fn spacing(&self, sheet: &Sheet, kind: Kind) -> Option<u32> {
        if self.within(MODE, sheet.rsc) {
            return Some(9);
        }
        if self.within(REFS, sheet.refc) {
            return Some(10);
        }
        if !kind.is_access() && self.after_access(sheet.rc()) {
            return Some(11);
        }
        let data = sheet.bl / 2 + 1;
        let after_data =
            self.within(READ, sheet.cl + data) || self.within(WRITE, sheet.wl() + data);
        if kind.is_mode() && after_data {
            return Some(11);
        }
        (kind == Kind::Refresh && self.within(REFS + 7, sheet.w())).then_some(12)
    }

    /// Whether a read or write stands less than so many clocks before.
    fn after_access(&self, spacing: u32) -> bool {
        self.within(READ, spacing) || self.within(WRITE, spacing)
    }

    /// Remembers a pair that closes at this clock.
    fn close(&mut self, kind: Kind, bank: u32) {
        let places: &[usize] = match kind {
            Kind::Read => &[READ, BANKS + bank as usize],
            Kind::Write => &[WRITE, BANKS + bank as usize],
            Kind::Extended if self.extended_stands() => &[MODE],
            Kind::Extended => &[MODE, EXTENDED],
            Kind::Regular => &[MODE, REGULAR],
            Kind::Refresh => {
                self.events[REFS..].rotate_right(1);
                &[REFS]
            }
        };
        for &place in places {
            self.events[place] = self.clock;
        }
    }
}

impl Past for Summary {
    fn fresh() -> Summary {
        Summary::of(0, word::DESL, [0; EVENTS])
    }

    fn clock(&self) -> u32 {
        self.clock
    }

    fn phase(&self) -> Phase {
        Phase::of(self.first)
    }

    fn lowest(&self, sheet: &Sheet, word: u32) -> Option<u32> {
        if word::stray_bit(word) {
            return Some(1);
        }
        if self.goes_low(word) && self.barred(sheet, word).next().is_some() {
            return Some(2);
        }
        let limit = self.refresh_limit(sheet);
        if limit.is_some_and(|limit| self.clock > limit) {
            return Some(3);
        }
        match self.phase() {
            Phase::Open(first) => self.closing(sheet, first, word),
            Phase::Standby => None,
            Phase::PowerDown | Phase::WakeUp => word::opens(word).then_some(13),
        }
    }

    fn push(&mut self, sheet: &Sheet, word: u32) {
        let next = match self.phase() {
            Phase::Open(first) => {
                self.close(pair::kind(first, word), wiring::bank(sheet, first));
                Phase::Standby
            }
            _ if !word::high(word, word::PD) => Phase::PowerDown,
            _ if word::opens(word) => Phase::Open(word),
            Phase::PowerDown => Phase::WakeUp,
            _ => Phase::Standby,
        };
        self.first = next.number();
        self.clock += 1;
    }

    fn extended_stands(&self) -> bool {
        self.at(EXTENDED).is_some()
    }

    fn regular_stands(&self) -> bool {
        self.at(REGULAR).is_some()
    }

    fn second_ref_stands(&self) -> bool {
        self.at(REFS + 1).is_some()
    }

    fn last_ref(&self) -> Option<u32> {
        self.at(REFS)
    }

    fn late_events(&self) -> Vec<&'static str> {
        let newest = self
            .events
            .iter()
            .fold(0, |newest, &event| newest.max(event));
        if newest < self.clock {
            return Vec::new();
        }
        let late = |&(_, event): &(_, u32)| event != 0 && event >= self.clock;
        let events = NAMES.into_iter().zip(self.events);
        events.filter(late).map(|(name, _)| name).collect()
    }
}
