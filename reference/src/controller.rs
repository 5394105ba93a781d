//! The controller, deciding by the published rules on the words it has given so far.

use crate::ground::{self, Ground, NO_REQUEST, OPEN_AT_0};
use crate::judge::LONGEST;
use crate::pair::{self, Operation, Request};
use crate::past::Past;
use crate::queue::{Queue, CAPACITY};
use crate::sheet::Sheet;
use crate::word::DESL;

/// Which pair is open.
#[derive(Clone, Copy, Debug, PartialEq, Eq)]
pub enum Opened {
    Extended,
    Regular,
    Refresh,
    /// That of the request at this place, of which 0 is the oldest's. Calls open no other.
    Waiting(u32),
}

/// A controller on a sheet, accepted or not. `past` is of the words given, so its clock is the
/// controller's.
#[derive(Clone)]
pub struct Controller<P> {
    pub sheet: Sheet,
    pub past: P,
    pub opened: Option<Opened>,
    pub queue: Queue,
}

impl<P: Past> Controller<P> {
    /// A fresh controller; making one refuses nothing.
    pub fn fresh(sheet: Sheet) -> Controller<P> {
        Controller {
            sheet,
            past: P::fresh(),
            opened: None,
            queue: Queue::fresh(),
        }
    }

    /// The grounds of 19.
    pub fn grounds(&self) -> Vec<Ground> {
        let mut grounds = ground::common(&self.past);
        if self.opened.is_some() && self.past.clock() == 0 {
            grounds.push(OPEN_AT_0);
        }
        grounds.extend(self.queue.grounds(&self.sheet));
        if matches!(self.opened, Some(Opened::Waiting(place)) if place >= self.queue.count) {
            grounds.push(NO_REQUEST);
        }
        grounds
    }

    /// The refusals that come before those of the call: the sheet's, then 19.
    pub fn refusal(&self) -> Option<u32> {
        ground::refusal(&self.sheet, || self.grounds())
    }

    /// Takes a request: the sheet's refusals, 19, then 26 a field out of range, then 27 sixteen wait.
    pub fn offer(&mut self, request: Request) -> Result<(), u32> {
        if let Some(number) = self.refusal() {
            return Err(number);
        }
        if !request.fits(&self.sheet) {
            return Err(26);
        }
        if self.queue.count as usize == CAPACITY {
            return Err(27);
        }
        self.queue.put(request);
        Ok(())
    }

    /// The word for this clock: the sheet's refusals, 19, then 24 at the last clock.
    pub fn tick(&mut self) -> Result<u32, u32> {
        if let Some(number) = self.refusal() {
            return Err(number);
        }
        if self.past.clock() == LONGEST {
            return Err(24);
        }
        let word = self.next_word();
        self.past.push(&self.sheet, word);
        Ok(word)
    }

    /// The closing word of an open pair; else the first word of the pair that has the turn, if the
    /// two would break nothing; else DESL.
    fn next_word(&mut self) -> u32 {
        if let Some(opened) = self.opened.take() {
            let words = self.words_of(opened).expect("a pair within its ranges");
            if let Opened::Waiting(place) = opened {
                self.queue.leave(place as usize);
            }
            return words.1;
        }
        let Some(turn) = self.turn() else {
            return DESL;
        };
        let words = self.words_of(turn).expect("a pair within its ranges");
        if !self.past.admits(&self.sheet, words) {
            return DESL;
        }
        self.opened = Some(turn);
        words.0
    }

    /// The pair that has the turn at this clock, if any.
    fn turn(&self) -> Option<Opened> {
        if !self.past.extended_stands() {
            return Some(Opened::Extended);
        }
        if !self.past.regular_stands() {
            return Some(Opened::Regular);
        }
        if !self.past.second_ref_stands() || self.refresh_is_due() {
            return Some(Opened::Refresh);
        }
        (self.queue.count > 0).then_some(Opened::Waiting(0))
    }

    /// Whether the last REF word is so long before that a refresh comes ahead of requests. A state
    /// that names a second last REF word and no last one contradicts itself, and the paper does not
    /// say what is due then: it is taken as a last REF word at clock 0, which its number says.
    fn refresh_is_due(&self) -> bool {
        let r = self.past.last_ref().unwrap_or(0);
        self.past.clock() >= r + self.sheet.d() - self.sheet.rc()
    }

    /// The two words of a pair; none if it is of no request, or out of the sheet's ranges.
    pub fn words_of(&self, opened: Opened) -> Option<(u32, u32)> {
        let operation = match opened {
            Opened::Extended => Operation::Extended(0),
            Opened::Regular => Operation::Regular(false),
            Opened::Refresh => Operation::Refresh,
            Opened::Waiting(place) => Operation::Access(*self.queue.waiting().get(place as usize)?),
        };
        pair::write(&self.sheet, &operation).ok()
    }
}
