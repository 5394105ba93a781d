//! The replay program's script: each call as its code and its numbers. A further code needs a case
//! in `Call`, in `code`, `numbers` and `decode` here, and one in the player that answers it.

use crate::sheet::{Sheet, NUMBERS, WITHOUT_WIRING};
use crate::state::{CheckerNumbers, ControllerNumbers};

/// One call. Numbers are raw, so that a case can hand over any.
#[derive(Clone, Debug, PartialEq, Eq)]
pub enum Call {
    /// Test the configuration, of eight banks, and start afresh on it.
    Config([u32; WITHOUT_WIRING]),
    /// Step the checker by the word, count times.
    Step { count: u32, word: u32 },
    /// The whole check.
    Check(Vec<u32>),
    /// Offer a request.
    Offer([u32; 6]),
    /// Tick count times.
    Tick(u32),
    /// Read the pair, with the clocks of its data.
    ReadPair(u32, u32),
    /// Write the pair.
    WritePair(PairNumbers),
    /// Count the commands and the clocks of data.
    Count(Vec<u32>),
    /// The requests waiting.
    Waiting,
    /// A walk over the words.
    Walk(Vec<u32>),
    /// Offer a request to a lent controller.
    OfferLent([u32; 6]),
    /// Tick a lent controller count times.
    TickLent(u32),
    /// Test the configuration with its wiring and start afresh on it.
    ConfigWired([u32; NUMBERS]),
    /// The length in time of a trace of so many words.
    Time(u32),
    /// The whole check on every sheet from the configuration to this one.
    CheckWithin([u32; NUMBERS], Vec<u32>),
    /// Put the checker into a state.
    PutChecker(Box<CheckerNumbers>),
    /// Put the controller into a state.
    PutController(Box<ControllerNumbers>),
    /// The checker's state.
    ShowChecker,
    /// The controller's state.
    ShowController,
    /// Tick once, the word of a refused tick shown too.
    TickOnce,
    /// Tick a lent controller once.
    TickOnceLent,
    /// The same, the counts of a refused tally shown too.
    CountAnyway(Vec<u32>),
    /// One advance of a walk over the words that has reached the checker as it is.
    Advance(Vec<u32>),
}

/// The operation of a pair to be written, in raw numbers.
#[derive(Clone, Copy, Debug, PartialEq, Eq)]
pub enum PairNumbers {
    Access([u32; 6]),
    Regular(u32),
    Extended(u32),
    Refresh,
}

/// The most words that a script can have: 65,536 bytes.
pub const SCRIPT_WORDS: usize = 16_384;

impl Call {
    /// The call's code in the replay program's table.
    pub fn code(&self) -> u32 {
        match self {
            Call::Config(_) => 1,
            Call::Step { .. } => 2,
            Call::Check(_) => 3,
            Call::Offer(_) => 4,
            Call::Tick(_) => 5,
            Call::ReadPair(..) => 6,
            Call::WritePair(_) => 7,
            Call::Count(_) => 8,
            Call::Waiting => 9,
            Call::Walk(_) => 10,
            Call::OfferLent(_) => 11,
            Call::TickLent(_) => 12,
            Call::ConfigWired(_) => 13,
            Call::Time(_) => 14,
            Call::CheckWithin(..) => 15,
            Call::PutChecker(_) => 101,
            Call::PutController(_) => 102,
            Call::ShowChecker => 103,
            Call::ShowController => 104,
            Call::TickOnce => 105,
            Call::TickOnceLent => 106,
            Call::CountAnyway(_) => 107,
            Call::Advance(_) => 108,
        }
    }

    /// The sheet of a call that starts afresh on one.
    pub fn sheet(&self) -> Option<Sheet> {
        match self {
            Call::Config(numbers) => Some(Sheet::of_eight(*numbers)),
            Call::ConfigWired(numbers) => Some(Sheet::from_numbers(*numbers)),
            _ => None,
        }
    }

    /// The numbers that follow the code.
    fn numbers(&self) -> Vec<u32> {
        let counted = |words: &[u32]| [&[words.len() as u32], words].concat();
        match self {
            Call::Config(sheet) => sheet.to_vec(),
            Call::ConfigWired(sheet) => sheet.to_vec(),
            Call::CheckWithin(sheet, words) => [&sheet[..], &counted(words)].concat(),
            Call::Step { count, word } => vec![*count, *word],
            Call::Check(words) | Call::Count(words) | Call::Walk(words) => counted(words),
            Call::CountAnyway(words) | Call::Advance(words) => counted(words),
            Call::Offer(request) | Call::OfferLent(request) => request.to_vec(),
            Call::Tick(count) | Call::TickLent(count) | Call::Time(count) => vec![*count],
            Call::ReadPair(first, second) => vec![*first, *second],
            Call::WritePair(PairNumbers::Access(request)) => [&[0], &request[..]].concat(),
            Call::WritePair(PairNumbers::Regular(a3)) => vec![1, *a3],
            Call::WritePair(PairNumbers::Extended(value)) => vec![2, *value],
            Call::WritePair(PairNumbers::Refresh) => vec![3],
            Call::PutChecker(numbers) => numbers.to_vec(),
            Call::PutController(numbers) => numbers.to_vec(),
            Call::Waiting | Call::ShowChecker | Call::ShowController => vec![],
            Call::TickOnce | Call::TickOnceLent => vec![],
        }
    }

    /// Puts the call at the end of a script.
    pub fn encode(&self, script: &mut Vec<u32>) {
        script.push(self.code());
        script.extend(self.numbers());
    }

    /// Takes the next call off a script; none at a code not listed or a call cut short.
    pub fn decode(rest: &mut &[u32]) -> Option<Call> {
        let call = match one(rest)? {
            1 => Call::Config(some(rest)?),
            2 => {
                let [count, word] = some(rest)?;
                Call::Step { count, word }
            }
            3 => Call::Check(counted(rest)?),
            4 => Call::Offer(some(rest)?),
            5 => Call::Tick(one(rest)?),
            6 => {
                let [first, second] = some(rest)?;
                Call::ReadPair(first, second)
            }
            7 => Call::WritePair(pair(rest)?),
            8 => Call::Count(counted(rest)?),
            9 => Call::Waiting,
            10 => Call::Walk(counted(rest)?),
            11 => Call::OfferLent(some(rest)?),
            12 => Call::TickLent(one(rest)?),
            13 => Call::ConfigWired(some(rest)?),
            14 => Call::Time(one(rest)?),
            15 => Call::CheckWithin(some(rest)?, counted(rest)?),
            101 => Call::PutChecker(Box::new(some(rest)?)),
            102 => Call::PutController(Box::new(some(rest)?)),
            103 => Call::ShowChecker,
            104 => Call::ShowController,
            105 => Call::TickOnce,
            106 => Call::TickOnceLent,
            107 => Call::CountAnyway(counted(rest)?),
            108 => Call::Advance(counted(rest)?),
            _ => return None,
        };
        Some(call)
    }
}

/// Takes what a pair is written from, by its kind; none for another kind.
fn pair(rest: &mut &[u32]) -> Option<PairNumbers> {
    let numbers = match one(rest)? {
        0 => PairNumbers::Access(some(rest)?),
        1 => PairNumbers::Regular(one(rest)?),
        2 => PairNumbers::Extended(one(rest)?),
        3 => PairNumbers::Refresh,
        _ => return None,
    };
    Some(numbers)
}

/// Takes so many words off the script.
fn take<'a>(rest: &mut &'a [u32], count: usize) -> Option<&'a [u32]> {
    if count > rest.len() {
        return None;
    }
    let (taken, left) = rest.split_at(count);
    *rest = left;
    Some(taken)
}

/// Takes one word.
fn one(rest: &mut &[u32]) -> Option<u32> {
    take(rest, 1).map(|w| w[0])
}

/// Takes a fixed number of words.
fn some<const N: usize>(rest: &mut &[u32]) -> Option<[u32; N]> {
    take(rest, N).map(|w| w.try_into().unwrap())
}

/// Takes a count and so many words.
fn counted(rest: &mut &[u32]) -> Option<Vec<u32>> {
    let count = one(rest)?;
    take(rest, count as usize).map(|w| w.to_vec())
}

/// The script of some calls.
pub fn script(calls: &[Call]) -> Vec<u32> {
    let mut script = Vec::new();
    calls.iter().for_each(|call| call.encode(&mut script));
    script
}

/// A script's words as the bytes that the program reads.
pub fn bytes(script: &[u32]) -> Vec<u8> {
    script.iter().flat_map(|w| w.to_le_bytes()).collect()
}

/// Packs groups of calls into scripts that are as long as allowed. A group stays together, and
/// begins with a configuration so that it does not depend on what stands before it.
pub struct Packer<'a> {
    script: Vec<u32>,
    send: &'a mut dyn FnMut(&[u8]),
}

impl<'a> Packer<'a> {
    /// A packer that hands each finished script to `send`.
    pub fn new(send: &'a mut dyn FnMut(&[u8])) -> Packer<'a> {
        Packer {
            script: Vec::new(),
            send,
        }
    }

    /// Adds a group of calls.
    pub fn group(&mut self, calls: &[Call]) {
        let words = script(calls);
        assert!(words.len() <= SCRIPT_WORDS, "a group longer than a script");
        if self.script.len() + words.len() > SCRIPT_WORDS {
            self.finish();
        }
        self.script.extend(words);
    }

    /// Sends what was gathered.
    pub fn finish(&mut self) {
        if !self.script.is_empty() {
            (self.send)(&bytes(&self.script));
            self.script.clear();
        }
    }

    /// Sends a script of its own, of any bytes.
    pub fn raw(&mut self, script: &[u8]) {
        self.finish();
        (self.send)(script);
    }
}
