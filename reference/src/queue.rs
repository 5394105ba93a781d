//! The requests that wait, oldest first, in places of which the first ones are in use.

use crate::ground::{Ground, TOO_MANY};
use crate::pair::Request;
use crate::sheet::Sheet;

/// The number of requests that can wait.
pub const CAPACITY: usize = 16;

/// How many wait, and all places. What stands in the places behind those is not looked at.
#[derive(Clone, Copy, Debug, PartialEq, Eq)]
pub struct Queue {
    pub count: u32,
    pub places: [Request; CAPACITY],
}

impl Queue {
    /// Nothing waits.
    pub fn fresh() -> Queue {
        Queue {
            count: 0,
            places: [Request::VACANT; CAPACITY],
        }
    }

    /// The requests that wait; of more than sixteen, those that have a place.
    pub fn waiting(&self) -> &[Request] {
        &self.places[..CAPACITY.min(self.count as usize)]
    }

    /// Puts a request into the next place; there is one.
    pub fn put(&mut self, request: Request) {
        self.places[self.count as usize] = request;
        self.count += 1;
    }

    /// The request at a place leaves, where one waits: the younger ones move up, and the last of the
    /// places that were in use is vacant.
    pub fn leave(&mut self, place: usize) {
        let moving = &mut self.places[place..self.count as usize];
        moving.rotate_left(1);
        moving[moving.len() - 1] = Request::VACANT;
        self.count -= 1;
    }

    /// The grounds of 19 that lie here: too many wait, or a waiting field is out of range.
    pub fn grounds(&self, sheet: &Sheet) -> Vec<Ground> {
        let unfit = self.waiting().iter().flat_map(|r| r.unfit(sheet));
        let mut grounds: Vec<Ground> = unfit.collect();
        if self.count as usize > CAPACITY {
            grounds.push(TOO_MANY);
        }
        grounds
    }
}
