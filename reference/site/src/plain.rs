//! A plain one-pass checker in Rust with bounded state, written for speed: what the archive's check
//! is timed against. For each rule it keeps the first clock that the rule allows.

use reference::hand_in::site_refusal;
use reference::sheet::Sheet;
use std::arch::asm;

const FN: u32 = 1 << 17;
const CS: u32 = 1 << 18;
const BA0: u32 = 1 << 14;
/// The pins that every MRS has low: BA2, BA1, A13 to A7.
const MODE_LOW: u32 = 0x1_BF80;
/// VW0 and VW1 of the lower lane on BA2 and A13, of the upper one on A12 and A11.
const LOWER: u32 = 0x1_2000;
const UPPER: u32 = 0x1800;

/// What a word meets where no pair is open: nothing, PD low in the word before, one wake-up word due.
const NOTHING: u32 = 0;
const ASLEEP: u32 = 1;
const WAKE_UP: u32 = 2;

/// The state before a word. A clock named `from` is the first that is allowed.
struct Checker<'a> {
    sheet: &'a Sheet,
    rc: u32,
    d: u32,
    w: u32,
    /// The bank pins of a first word, shifted down: three, or two with four banks.
    banks: u32,
    /// The pins of each lane in use, and what they hold when the lane is reserved.
    lanes: (u32, u32),
    reserved: u32,
    /// What the next word meets: the first word of an open pair, or one of the words above, none of which
    /// can open one.
    met: u32,
    /// The last clock that rule 3 allows.
    last: u32,
    first_extended: Option<u32>,
    regular: bool,
    refs: usize,
    ref_words: [u32; 8],
    ready_from: u32,
    bank_from: [u32; 8],
    read_from: u32,
    write_from: u32,
    after_mode: u32,
    after_refresh: u32,
    /// Rule 11 for a refresh, and for a mode.
    refresh_from: u32,
    mode_from: u32,
    /// Rule 2 after the last read and the last write, and its spacings after them.
    low_from: [u32; 2],
    low_after: [u32; 2],
}

impl<'a> Checker<'a> {
    fn new(sheet: &'a Sheet) -> Checker<'a> {
        Checker {
            sheet,
            rc: sheet.rc(),
            d: sheet.d(),
            w: sheet.w(),
            banks: sheet.wiring - 1,
            lanes: (LOWER, if sheet.org == 16 { UPPER } else { LOWER }),
            reserved: if sheet.bl == 4 { 0 } else { u32::MAX },
            met: NOTHING,
            last: u32::MAX,
            first_extended: None,
            regular: false,
            refs: 0,
            ref_words: [0; 8],
            ready_from: u32::MAX,
            bank_from: [0; 8],
            read_from: 0,
            write_from: 0,
            after_mode: 0,
            after_refresh: 0,
            refresh_from: 0,
            mode_from: 0,
            low_from: [0; 2],
            low_after: [sheet.cl + sheet.bl / 2, sheet.wl() + 2].map(|d| sheet.rc().max(1 + d)),
        }
    }

    /// Takes the word at clock k in; the breach number, or 0.
    #[inline(always)]
    fn step(&mut self, k: u32, word: u32) -> u32 {
        if word >> 19 != 1 {
            return if word >> 20 != 0 {
                1
            } else {
                self.low(k, word)
            };
        }
        if k > self.last {
            return 3;
        }
        if self.met == NOTHING {
            if word & CS == 0 {
                self.met = word;
            }
            return 0;
        }
        let first = std::mem::replace(&mut self.met, NOTHING);
        if first <= WAKE_UP {
            return self.wake_up(first, word);
        }
        match (first & FN != 0, word & CS != 0) {
            (true, true) => self.access(k - 1, first, false),
            (false, true) => {
                if word & self.lanes.0 == self.reserved || word & self.lanes.1 == self.reserved {
                    return 5;
                }
                self.access(k - 1, first, true)
            }
            (true, false) => self.mode(k - 1, word),
            (false, false) => self.refresh(k - 1),
        }
    }

    /// A word with PD low.
    #[inline(always)]
    fn low(&mut self, k: u32, word: u32) -> u32 {
        if self.met != ASLEEP {
            if !self.may_go_low(k, word) {
                return 2;
            }
            self.met = ASLEEP;
        }
        if k > self.last {
            return 3;
        }
        0
    }

    /// A word with PD high that meets a sleep or the second wake-up word.
    fn wake_up(&mut self, met: u32, word: u32) -> u32 {
        if word & CS == 0 {
            return 13;
        }
        if met == ASLEEP {
            self.met = WAKE_UP;
        }
        0
    }

    /// Whether PD may go low at k.
    fn may_go_low(&self, k: u32, word: u32) -> bool {
        let [after_read, after_write] = self.low_from;
        let after_pairs = self.after_mode.max(self.after_refresh);
        let from = after_pairs.max(after_read).max(after_write);
        self.met == NOTHING && word & CS != 0 && k >= from
    }

    /// A read or write at u.
    #[inline(always)]
    fn access(&mut self, u: u32, first: u32, write: bool) -> u32 {
        let bank = (first >> 14 & self.banks & 7) as usize;
        let from = if write {
            self.write_from
        } else {
            self.read_from
        };
        if u < self.ready_from {
            return 6;
        }
        if u < self.bank_from[bank] {
            return 7;
        }
        if u < from {
            return 8;
        }
        if u < self.after_mode {
            return 9;
        }
        if u < self.after_refresh {
            return 10;
        }
        let s = self.sheet;
        let near = u + s.rbd;
        let (read_turn, write_turn, data) = if write {
            (u + 1 + s.wrd, 0, s.wl())
        } else {
            (0, u + 1 + s.rwd, s.cl)
        };
        self.bank_from[bank] = u + self.rc;
        self.read_from = self.read_from.max(near).max(read_turn);
        self.write_from = self.write_from.max(near).max(write_turn);
        self.refresh_from = u + self.rc;
        self.mode_from = self.mode_from.max(u + 1 + data + s.bl / 2).max(u + self.rc);
        self.low_from[write as usize] = u + self.low_after[write as usize];
        0
    }

    /// A mode pair at u; rare, so kept out of the loop, as the refresh is.
    #[inline(never)]
    fn mode(&mut self, u: u32, word: u32) -> u32 {
        let s = self.sheet;
        let extended = word & BA0 != 0;
        let burst = if s.bl == 2 { 1 } else { 2 };
        let fits = if extended {
            word & 1 == 0
        } else {
            word & 0x77 == s.cl << 4 | burst
        };
        if !fits || word & MODE_LOW != 0 {
            return 4;
        }
        if u < self.after_mode {
            return 9;
        }
        if u < self.after_refresh {
            return 10;
        }
        if u < self.mode_from {
            return 11;
        }
        self.after_mode = u + s.rsc;
        if extended {
            self.first_extended.get_or_insert(u + 1);
        } else {
            self.regular = true;
        }
        self.make_ready();
        0
    }

    /// A refresh at u. What rule 3 allows changes here alone.
    #[inline(never)]
    fn refresh(&mut self, u: u32) -> u32 {
        if u < self.after_mode {
            return 9;
        }
        if u < self.after_refresh {
            return 10;
        }
        if u < self.refresh_from {
            return 11;
        }
        let k = u + 1;
        let eighth = &mut self.ref_words[self.refs % 8];
        if self.refs >= 8 && k < *eighth + self.w {
            return 12;
        }
        *eighth = k;
        self.refs += 1;
        self.last = self.refresh_limit();
        self.after_refresh = u + self.sheet.refc;
        self.make_ready();
        0
    }

    /// The m-th last REF word and m × D, m being the number of REF words but at most eight.
    fn refresh_limit(&self) -> u32 {
        let m = self.refs.min(8);
        self.ref_words[(self.refs - m) % 8] + m as u32 * self.d
    }

    /// Rule 6, once all that it asks for stands.
    fn make_ready(&mut self) {
        if let Some(e) = self
            .first_extended
            .filter(|_| self.regular && self.refs >= 2)
        {
            self.ready_from = e + 200;
        }
    }
}

/// The exam site's number for a trace. In front of the loop stand so many bytes that are never run, which
/// move it to another place.
#[inline(never)]
pub fn check<const PADDING: usize>(sheet: &Sheet, bytes: &[u8]) -> u32 {
    // SAFETY: a jump over bytes that nothing else jumps to.
    unsafe {
        asm!("jmp 2f", ".skip {bytes}", "2:", bytes = const PADDING, options(nomem, nostack, preserves_flags))
    };
    if let Some(number) = site_refusal(sheet, bytes.len()) {
        return number;
    }
    let mut checker = Checker::new(sheet);
    for (k, word) in (0..).zip(bytes.chunks_exact(4)) {
        let number = checker.step(k, u32::from_le_bytes(word.try_into().unwrap()));
        if number != 0 {
            return k * 64 + number;
        }
    }
    0
}
