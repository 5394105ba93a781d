//! The text that the replay program must write for a script, by this implementation.

use crate::both::Both;
use crate::checker::{Checker, Step};
use crate::controller::Controller;
use crate::counts::counts;
use crate::judge::{check, Verdict};
use crate::limits::check_within;
use crate::lines::{self, numbered, refused};
use crate::pair::{self, Operation, Request};
use crate::past::Past;
use crate::script::{bytes, Call, PairNumbers};
use crate::sheet::{Sheet, NUMBERS, SHEET_E};
use crate::state::{self, CheckerNumbers, ControllerNumbers};
use crate::time;
use crate::walk::Walk;
use crate::word::DESL;
use std::fmt::Write;

/// The line for a script, or the rest of one, that cannot be played.
const SCRIPT_REFUSED: &str = "script refused\n";

/// What a script gives: its text, its calls, the configuration once each is made, the wiring that each
/// goes by, and the lines of the text up to each call's end.
#[derive(Default)]
pub struct Answers {
    pub text: String,
    pub calls: Vec<Call>,
    pub configurations: Vec<Sheet>,
    pub wirings: Vec<u32>,
    pub ends: Vec<usize>,
}

impl Answers {
    /// The call that a line of the text answers.
    pub fn call_of(&self, line: usize) -> usize {
        self.ends.partition_point(|&end| end <= line)
    }
}

/// The replay program's configuration, checker and controller.
struct Player {
    sheet: Sheet,
    checker: Checker<Both>,
    controller: Controller<Both>,
}

impl Player {
    /// As after a configuration call with the sheet.
    fn on(sheet: Sheet) -> Player {
        Player {
            sheet,
            checker: Checker::fresh(sheet),
            controller: Controller::fresh(sheet),
        }
    }

    /// Makes one call and gives the lines that it writes.
    fn play(&mut self, call: &Call) -> String {
        match call {
            Call::Config(_) | Call::ConfigWired(_) => {
                *self = Player::on(call.sheet().expect("a configuration"));
                format!("config {}\n", self.sheet.refusal().unwrap_or(0))
            }
            Call::Step { count, word } => self.step(*count, *word),
            Call::Check(words) => self.check(words),
            Call::CheckWithin(greatest, words) => self.check_within(*greatest, words),
            Call::Time(count) => lines::time(time::length(&self.sheet, (*count).into())),
            // A lent controller answers and is left as one that is handed back.
            Call::Offer(numbers) | Call::OfferLent(numbers) => self.offer(*numbers),
            Call::Tick(count) | Call::TickLent(count) => self.tick(*count),
            Call::TickOnce | Call::TickOnceLent => self.tick_once(),
            Call::ReadPair(first, second) => {
                lines::reading(pair::read(&self.sheet, *first, *second))
            }
            Call::WritePair(numbers) => match pair::write(&self.sheet, &operation(numbers)) {
                Ok((first, second)) => format!("words {first} {second}\n"),
                Err(number) => refused(number),
            },
            Call::Count(words) => lines::counts(counts(&self.sheet, words)),
            Call::CountAnyway(words) => lines::counts_anyway(counts(&self.sheet, words)),
            Call::Waiting => self.waiting(),
            Call::Walk(words) => self.walk(words),
            Call::Advance(words) => self.advance(words),
            Call::PutChecker(numbers) => self.put_checker(numbers),
            Call::PutController(numbers) => self.put_controller(numbers),
            Call::ShowChecker => numbered("checker", &state::checker_numbers(&self.checker)),
            Call::ShowController => {
                numbered("controller", &state::controller_numbers(&self.controller))
            }
        }
    }

    /// The wiring that a call goes by, once it is made: that of its state, or the configuration's.
    fn wiring(&self, call: &Call) -> u32 {
        let (checker, controller) = (&self.checker.sheet, &self.controller.sheet);
        let sheet = match call {
            Call::Step { .. } | Call::Advance(_) | Call::ShowChecker => checker,
            Call::Offer(_) | Call::OfferLent(_) => controller,
            Call::Tick(_) | Call::TickLent(_) => controller,
            Call::TickOnce | Call::TickOnceLent => controller,
            Call::Waiting | Call::ShowController => controller,
            _ => &self.sheet,
        };
        sheet.wiring
    }

    /// Puts the checker into a state, which writes nothing.
    fn put_checker(&mut self, numbers: &CheckerNumbers) -> String {
        self.checker = state::checker(numbers);
        String::new()
    }

    /// Puts the controller into a state, which writes nothing.
    fn put_controller(&mut self, numbers: &ControllerNumbers) -> String {
        self.controller = state::controller(numbers);
        String::new()
    }

    /// The whole check on the configuration.
    fn check(&self, words: &[u32]) -> String {
        match check::<Both>(&self.sheet, words) {
            Ok(Verdict::Accepted) => format!("accepted {}\n", words.len()),
            Ok(Verdict::Breach { clock, number }) => format!("breach {clock} {number}\n"),
            Err(number) => refused(number),
        }
    }

    /// The whole check on every sheet from the configuration to another.
    fn check_within(&self, greatest: [u32; NUMBERS], words: &[u32]) -> String {
        let greatest = Sheet::from_numbers(greatest);
        match check_within::<Both>(self.sheet, greatest, words) {
            Ok(Some(shown)) => lines::shown(&shown),
            Ok(None) => "always\n".to_string(),
            Err(number) => refused(number),
        }
    }

    /// Steps the checker, ending at the first step that does not pass.
    fn step(&mut self, count: u32, word: u32) -> String {
        for _ in 0..count {
            match self.checker.step(word) {
                Step::Pass => {}
                Step::Breach { clock, number } => return format!("breach {clock} {number}\n"),
                Step::Refused(number) => return refused(number),
            }
        }
        format!("pass {}\n", self.checker.past.clock())
    }

    /// Walks until a move does not pass, and once more.
    fn walk(&self, words: &[u32]) -> String {
        let mut walk = Walk::<Both>::fresh(self.sheet, words);
        let mut stop = walk.advance();
        while stop == Some(Step::Pass) {
            stop = walk.advance();
        }
        let again = walk.advance();
        let clock = walk.checker.past.clock();
        lines::moved(stop, clock) + &lines::moved(again, clock)
    }

    /// One move of a walk that has reached the checker as it is, which is left as the walk's.
    fn advance(&mut self, words: &[u32]) -> String {
        let mut walk = Walk::at(self.checker.clone(), words);
        let moved = walk.advance();
        self.checker = walk.checker;
        lines::moved(moved, self.checker.past.clock())
    }

    /// Offers a request to the controller.
    fn offer(&mut self, numbers: [u32; 6]) -> String {
        match self.controller.offer(Request::from_numbers(numbers)) {
            Ok(()) => "offered\n".to_string(),
            Err(number) => refused(number),
        }
    }

    /// Ticks the controller, ending at the first tick that is refused. DESL is left out by its word,
    /// and so is a closing word that is the same one: a LAL of column 0 with all lane pins low.
    fn tick(&mut self, count: u32) -> String {
        let mut text = String::new();
        for _ in 0..count {
            let clock = self.controller.past.clock();
            match self.controller.tick() {
                Ok(DESL) => {}
                Ok(word) => writeln!(text, "word {clock} {word}").unwrap(),
                Err(number) => return text + &refused(number),
            }
        }
        text + &format!("clock {}\n", self.controller.past.clock())
    }

    /// Ticks once, and shows the word of a refused tick too, which is 0.
    fn tick_once(&mut self) -> String {
        let (number, word) = match self.controller.tick() {
            Ok(word) => (0, word),
            Err(number) => (number, 0),
        };
        format!("tick {number} {word}\n")
    }

    /// The requests waiting; of a count above sixteen, those that have a place.
    fn waiting(&self) -> String {
        let queue = &self.controller.queue;
        let mut text = format!("waiting {}\n", queue.count);
        for request in queue.waiting() {
            text += &numbered("request", &request.numbers());
        }
        text
    }
}

/// The operation of raw numbers.
fn operation(numbers: &PairNumbers) -> Operation {
    match numbers {
        PairNumbers::Access(request) => Operation::Access(Request::from_numbers(*request)),
        PairNumbers::Regular(a3) => Operation::Regular(*a3 != 0),
        PairNumbers::Extended(value) => Operation::Extended(*value),
        PairNumbers::Refresh => Operation::Refresh,
    }
}

/// Plays a script of any bytes.
pub fn answers(script: &[u8]) -> Answers {
    let mut answers = Answers::default();
    if !script.len().is_multiple_of(4) || script.len() > 65_536 {
        answers.text = SCRIPT_REFUSED.to_string();
        return answers;
    }
    let words: Vec<u32> = script
        .chunks_exact(4)
        .map(|b| u32::from_le_bytes(b.try_into().unwrap()))
        .collect();
    let mut rest = &words[..];
    let mut player = Player::on(SHEET_E);
    let mut lines = 0;
    while !rest.is_empty() {
        let Some(call) = Call::decode(&mut rest) else {
            answers.text += SCRIPT_REFUSED;
            break;
        };
        let text = player.play(&call);
        lines += text.lines().count();
        answers.text += &text;
        answers.configurations.push(player.sheet);
        answers.wirings.push(player.wiring(&call));
        answers.calls.push(call);
        answers.ends.push(lines);
    }
    answers
}

/// The text that the replay program must write for the script.
pub fn expected(script: &[u32]) -> String {
    answers(&bytes(script)).text
}
