//! The whole history of closed pairs, and the rules judged by scanning it, as the paper's sentences go.

mod power_down;

use crate::pair::{self, Kind};
use crate::past::Past;
use crate::phase::Phase;
use crate::sheet::Sheet;
use crate::wiring;
use crate::word;

/// A closed pair of the trace: words at `start` and `start + 1`.
#[derive(Clone, Copy, Debug, PartialEq, Eq)]
pub struct Closed {
    pub start: u32,
    pub kind: Kind,
    pub bank: u32,
}

/// One broken part of a rule: the rule's number, and which of its parts.
#[derive(Clone, Copy, Debug, PartialEq, Eq, PartialOrd, Ord)]
pub struct Broken {
    pub number: u32,
    pub part: &'static str,
}

/// The words before a clock: how many, the open first word if any, all pairs closed, and the last word
/// with PD low that belongs to no pair.
#[derive(Clone, Debug)]
pub struct History {
    pub clock: u32,
    pub open: Option<u32>,
    pub pairs: Vec<Closed>,
    pub last_low: Option<u32>,
}

impl History {
    /// Every part of every rule that the word breaks at this clock, lowest number first.
    pub fn broken(&self, sheet: &Sheet, word: u32) -> Vec<Broken> {
        let mut found = Vec::new();
        take(&mut found, [(1, "high bit", word::stray_bit(word))]);
        if self.goes_low(word) {
            take(&mut found, self.going_low_rules(sheet, word));
        }
        take(&mut found, [(3, "D", self.overdue(sheet))]);
        if let Some(first) = self.open {
            let closing = Closing {
                pairs: &self.pairs,
                sheet,
                u: self.clock - 1,
                kind: pair::kind(first, word),
                bank: wiring::bank(sheet, first),
                second: word,
            };
            take(&mut found, closing.pin_rules());
            if closing.kind.is_access() {
                take(&mut found, closing.access_rules());
            }
            take(&mut found, closing.spacing_rules());
        }
        if self.clocks_since_low().is_some_and(|clocks| clocks < 3) {
            take(&mut found, self.wake_up_rules(word));
        }
        found
    }

    /// The clocks of all REF words, oldest first.
    pub fn ref_words(&self) -> impl DoubleEndedIterator<Item = u32> + '_ {
        ref_words(&self.pairs)
    }

    /// Rule 3: the m-th last REF word stands more than m × D before, m being the number of REF words
    /// but at most eight. It is judged for that m alone.
    fn overdue(&self, sheet: &Sheet) -> bool {
        let from_the_last = self.ref_words().rev().zip(1..);
        let mth_last = from_the_last.take(8).last();
        mth_last.is_some_and(|(r, m)| self.clock - r > m * sheet.d())
    }
}

/// The clocks of the REF words among pairs, oldest first.
fn ref_words(pairs: &[Closed]) -> impl DoubleEndedIterator<Item = u32> + '_ {
    let refreshes = pairs.iter().filter(|p| p.kind == Kind::Refresh);
    refreshes.map(|p| p.start + 1)
}

/// A part of a rule and whether it is broken.
type Row = (u32, &'static str, bool);

/// Adds those of the rows that are broken.
fn take<const N: usize>(found: &mut Vec<Broken>, rows: [Row; N]) {
    for (number, part, broken) in rows {
        if broken {
            found.push(Broken { number, part });
        }
    }
}

/// A pair that its second word would close at u + 1, and the pairs before it.
struct Closing<'a> {
    pairs: &'a [Closed],
    sheet: &'a Sheet,
    u: u32,
    kind: Kind,
    bank: u32,
    second: u32,
}

impl Closing<'_> {
    /// Whether some earlier pair is of this sort.
    fn earlier(&self, sort: impl Fn(&Closed) -> bool) -> bool {
        self.pairs.iter().any(sort)
    }

    /// Whether some earlier pair of this sort began less than so many clocks before u.
    fn within(&self, spacing: u32, sort: impl Fn(&Closed) -> bool) -> bool {
        self.earlier(|p| sort(p) && self.u - p.start < spacing)
    }

    /// Whether some earlier pair of the kind closed less than so many clocks before u.
    fn closed_within(&self, spacing: u32, kind: Kind) -> bool {
        self.earlier(|p| p.kind == kind && self.u - (p.start + 1) < spacing)
    }

    /// Rules 4 and 5.
    fn pin_rules(&self) -> [Row; 2] {
        let (mode, write) = (self.kind.is_mode(), self.kind == Kind::Write);
        let wrong = || !pair::mode_fields_fit(self.sheet, self.second);
        let reserved = || self.sheet.bl == 4 && pair::reserved_lane(self.sheet, self.second);
        [
            (4, "fields", mode && wrong()),
            (5, "lane", write && reserved()),
        ]
    }

    /// Rules 6 to 8, of a read or write.
    fn access_rules(&self) -> [Row; 8] {
        let sheet = self.sheet;
        let before_u = |p: &&Closed| p.start + 1 < self.u;
        let of = |kind| move |p: &&Closed| p.kind == kind;
        let stand = |kind| self.pairs.iter().filter(of(kind)).filter(before_u);
        let e = stand(Kind::Extended).next().map(|p| p.start + 1);
        let turned = |old, new, spacing| self.kind == new && self.closed_within(spacing, old);
        let same_bank = |p: &Closed| p.kind.is_access() && p.bank == self.bank;
        [
            (6, "no extended MRS", e.is_none()),
            (6, "no regular MRS", stand(Kind::Regular).next().is_none()),
            (6, "no second REF", stand(Kind::Refresh).nth(1).is_none()),
            (6, "200 clocks", e.is_some_and(|e| self.u - e < 200)),
            (7, "RC", self.within(sheet.rc(), same_bank)),
            (8, "RBD", self.within(sheet.rbd, |p| p.kind.is_access())),
            (8, "RWD", turned(Kind::Read, Kind::Write, sheet.rwd)),
            (8, "WRD", turned(Kind::Write, Kind::Read, sheet.wrd)),
        ]
    }

    /// Rules 9 to 12.
    fn spacing_rules(&self) -> [Row; 6] {
        let (sheet, mode) = (self.sheet, self.kind.is_mode());
        let half = sheet.bl / 2;
        let refresh = |p: &Closed| p.kind == Kind::Refresh;
        let after_access = || self.within(sheet.rc(), |p| p.kind.is_access());
        let after_read = || self.closed_within(sheet.cl + half, Kind::Read);
        let after_write = || self.closed_within(sheet.wl() + half, Kind::Write);
        [
            (9, "RSC", self.within(sheet.rsc, |p| p.kind.is_mode())),
            (10, "REFC", self.within(sheet.refc, refresh)),
            (11, "RC", !self.kind.is_access() && after_access()),
            (11, "read data", mode && after_read()),
            (11, "write data", mode && after_write()),
            (12, "W", self.kind == Kind::Refresh && self.crowded()),
        ]
    }

    /// Whether the eighth last REF word stands, less than W before the closing word.
    fn crowded(&self) -> bool {
        let eighth_last = ref_words(self.pairs).nth_back(7);
        eighth_last.is_some_and(|r| self.u + 1 - r < self.sheet.w())
    }
}

impl Past for History {
    fn fresh() -> History {
        History {
            clock: 0,
            open: None,
            pairs: Vec::new(),
            last_low: None,
        }
    }

    fn clock(&self) -> u32 {
        self.clock
    }

    fn phase(&self) -> Phase {
        match (self.open, self.clocks_since_low()) {
            (Some(first), _) => Phase::Open(first),
            (None, Some(1)) => Phase::PowerDown,
            (None, Some(2)) => Phase::WakeUp,
            (None, _) => Phase::Standby,
        }
    }

    fn lowest(&self, sheet: &Sheet, word: u32) -> Option<u32> {
        self.broken(sheet, word).iter().map(|b| b.number).min()
    }

    fn push(&mut self, sheet: &Sheet, word: u32) {
        match self.open.take() {
            Some(first) => self.pairs.push(Closed {
                start: self.clock - 1,
                kind: pair::kind(first, word),
                bank: wiring::bank(sheet, first),
            }),
            None if !word::high(word, word::PD) => self.last_low = Some(self.clock),
            None if !word::high(word, word::CS) => self.open = Some(word),
            None => {}
        }
        self.clock += 1;
    }

    fn extended_stands(&self) -> bool {
        self.pairs.iter().any(|p| p.kind == Kind::Extended)
    }

    fn regular_stands(&self) -> bool {
        self.pairs.iter().any(|p| p.kind == Kind::Regular)
    }

    fn second_ref_stands(&self) -> bool {
        self.ref_words().nth(1).is_some()
    }

    fn last_ref(&self) -> Option<u32> {
        self.ref_words().next_back()
    }

    /// None: every pair is of words pushed, at clocks before.
    fn late_events(&self) -> Vec<&'static str> {
        Vec::new()
    }
}
