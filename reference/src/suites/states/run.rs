//! A checker or a controller that was put into a state, and the calls made on it since. Each call is
//! made here too, so that what stands at the next one can be counted.

use super::limit::{about_limit, NOT_OPENED, OPENED};
use super::meet::{meet, meet_latest, of_state};
use super::{lows, phases, places};
use crate::both::Both;
use crate::checker::{Checker, Step};
use crate::controller::Controller;
use crate::coverage::Coverage;
use crate::judge::LONGEST;
use crate::pair::Request;
use crate::past::Past;
use crate::phase::Phase;
use crate::queue::CAPACITY;
use crate::script::{Call, Packer};
use crate::state::{self, CheckerNumbers, ControllerNumbers};
use crate::summary::Summary;
use crate::walk::Walk;
use crate::wiring;
use crate::word::{BA2, DESL, FN, PD};

/// What shows that the configuration stayed: a mode that one CL and BL fit, a read that the wiring
/// decides the bank of, and the other state.
fn ending(other: Call) -> [Call; 3] {
    let mode = Call::ReadPair(PD | FN, PD | 0x42);
    let read = Call::ReadPair(PD | FN | BA2, DESL);
    [mode, read, other]
}

/// The calls of a run: a configuration of its own, other calls, and a state that is put and shown.
fn begun(config: Call, before: Vec<Call>, put: Call, shown: &[Call]) -> Vec<Call> {
    [&[config], &before[..], &[put], shown].concat()
}

/// A checker that was put, and its calls.
pub struct CheckerRun<'a> {
    checker: Checker<Both>,
    calls: Vec<Call>,
    coverage: &'a mut Coverage,
}

impl<'a> CheckerRun<'a> {
    /// On a configuration of its own, after other calls.
    pub fn put(
        coverage: &'a mut Coverage,
        config: Call,
        before: Vec<Call>,
        numbers: &CheckerNumbers,
    ) -> CheckerRun<'a> {
        let put = Call::PutChecker(Box::new(*numbers));
        CheckerRun {
            checker: state::checker(numbers),
            calls: begun(config, before, put, &[Call::ShowChecker]),
            coverage,
        }
    }

    /// Counts what stands at a call, in the order in which it is answered.
    fn count(&mut self, call: &str, at_end: bool) {
        let (sheet, past) = (&self.checker.sheet, self.checker.past.summary());
        let (clock, grounds) = (past.clock(), self.checker.grounds());
        let mut standing = of_state(sheet, &grounds);
        if standing.is_empty() {
            meet_latest(self.coverage, call, sheet, past);
        }
        let further = [
            (at_end, "end"),
            (self.checker.in_breach(), "23"),
            (clock == LONGEST, "24"),
        ];
        let stands = further.into_iter().filter(|(stands, _)| *stands);
        standing.extend(stands.map(|(_, answer)| answer.to_string()));
        meet(self.coverage, call, sheet, &grounds, &standing);
        if standing.is_empty() {
            self.count_limit(call);
        }
    }

    /// Counts a clock about the last one that rule 3 allows.
    fn count_limit(&mut self, call: &str) {
        let about = about_limit(&self.checker.sheet, self.checker.past.summary());
        if let Some(about) = about {
            self.coverage.meet(&format!("{call}: {about}"));
        }
    }

    /// Counts the answer that a word got, and what the state before had to say to it.
    fn count_answer(&mut self, call: &str, before: &Summary, word: u32, answer: Step) {
        phases::count(self.coverage, call, before.phase(), answer);
        if !matches!(answer, Step::Refused(_)) {
            lows::count(self.coverage, call, &self.checker.sheet, before, word);
        }
    }

    /// Steps by a word.
    pub fn step(&mut self, word: u32) {
        self.count("step", false);
        let before = *self.checker.past.summary();
        let answer = self.checker.step(word);
        self.count_answer("step", &before, word, answer);
        self.calls.push(Call::Step { count: 1, word });
        self.calls.push(Call::ShowChecker);
    }

    /// Advances a walk over the words that has reached the checker.
    pub fn advance(&mut self, words: Vec<u32>) {
        let before = *self.checker.past.summary();
        let next = words.get(before.clock() as usize);
        self.count("walk", next.is_none());
        let mut walk = Walk::at(self.checker.clone(), &words);
        let moved = walk.advance();
        self.checker = walk.checker;
        if let (Some(&word), Some(answer)) = (next, moved) {
            self.count_answer("walk", &before, word, answer);
        }
        self.calls.push(Call::Advance(words));
        self.calls.push(Call::ShowChecker);
    }

    /// What its next word meets.
    pub fn phase(&self) -> Phase {
        self.checker.past.phase()
    }

    /// The clock that it has reached.
    pub fn clock(&self) -> u32 {
        self.checker.past.clock()
    }

    /// Sends the calls as a group.
    pub fn send(mut self, packer: &mut Packer) {
        self.calls.extend(ending(Call::ShowController));
        packer.group(&self.calls);
    }
}

/// The calls on a controller, by value and lent.
#[derive(Clone, Copy)]
pub enum Form {
    Value,
    Lent,
}

/// A controller that was put, and its calls.
pub struct ControllerRun<'a> {
    pub controller: Controller<Both>,
    calls: Vec<Call>,
    coverage: &'a mut Coverage,
}

impl<'a> ControllerRun<'a> {
    /// On a configuration of its own, after other calls.
    pub fn put(
        coverage: &'a mut Coverage,
        config: Call,
        before: Vec<Call>,
        numbers: &ControllerNumbers,
    ) -> ControllerRun<'a> {
        let put = Call::PutController(Box::new(*numbers));
        let shown = [Call::ShowController, Call::Waiting];
        ControllerRun {
            controller: state::controller(numbers),
            calls: begun(config, before, put, &shown),
            coverage,
        }
    }

    /// Counts what stands at a call: the state's refusals, then those of the call itself. True if
    /// nothing does.
    fn count(&mut self, call: &str, further: &[(bool, &str)]) -> bool {
        let sheet = self.controller.sheet;
        let grounds = self.controller.grounds();
        if sheet.refusal().is_none() {
            places::count(self.coverage, call, &self.controller, &grounds);
        }
        let mut standing = of_state(&sheet, &grounds);
        if standing.is_empty() {
            meet_latest(self.coverage, call, &sheet, self.controller.past.summary());
            self.count_fullest(call);
        }
        let stands = further.iter().filter(|(stands, _)| *stands);
        standing.extend(stands.map(|(_, answer)| answer.to_string()));
        meet(self.coverage, call, &sheet, &grounds, &standing);
        standing.is_empty()
    }

    /// Counts sixteen waiting, and waiting fields at their greatest.
    fn count_fullest(&mut self, call: &str) {
        let (queue, sheet) = (&self.controller.queue, &self.controller.sheet);
        let banks = wiring::name(sheet.wiring);
        if queue.count as usize == CAPACITY {
            self.coverage
                .meet(&format!("{call}: sixteen wait, {banks}"));
        }
        for name in queue.waiting().iter().flat_map(|r| r.greatest(sheet)) {
            self.coverage
                .meet(&format!("{call}: {name} at its greatest, {banks}"));
        }
    }

    /// Offers a request of these numbers.
    pub fn offer(&mut self, form: Form, numbers: [u32; 6]) {
        let request = Request::from_numbers(numbers);
        let unfit = !request.fits(&self.controller.sheet);
        let full = self.controller.queue.count as usize >= CAPACITY;
        let (call, made) = match form {
            Form::Value => ("offer", Call::Offer(numbers)),
            Form::Lent => ("lent offer", Call::OfferLent(numbers)),
        };
        self.count(call, &[(unfit, "26"), (full, "27")]);
        let _ = self.controller.offer(request);
        self.calls.extend([made, Call::ShowController]);
    }

    /// One tick, its word shown even if it is refused.
    pub fn tick_once(&mut self, form: Form) {
        let made = match form {
            Form::Value => Call::TickOnce,
            Form::Lent => Call::TickOnceLent,
        };
        self.tick_by(form, made, 1);
    }

    /// Ticks so many times.
    pub fn tick(&mut self, form: Form, count: u32) {
        let made = match form {
            Form::Value => Call::Tick(count),
            Form::Lent => Call::TickLent(count),
        };
        self.tick_by(form, made, count);
    }

    /// Ticks by a call that ticks so many times, up to the first that is refused.
    fn tick_by(&mut self, form: Form, made: Call, count: u32) {
        let call = match form {
            Form::Value => "tick",
            Form::Lent => "lent tick",
        };
        for _ in 0..count {
            let last = self.controller.past.clock() == LONGEST;
            if !self.count(call, &[(last, "24")]) {
                break;
            }
            self.tick_counted(call);
        }
        self.calls.extend([made, Call::ShowController]);
    }

    /// A tick that nothing refuses; counts whether it opens a pair about the limit of rule 3.
    fn tick_counted(&mut self, call: &str) {
        let idle = self.controller.opened.is_none();
        let about = about_limit(&self.controller.sheet, self.controller.past.summary());
        let given = self.controller.tick();
        given.expect("a tick that nothing refuses");
        let what = match self.controller.opened.is_some() {
            true => OPENED,
            false => NOT_OPENED,
        };
        if let Some(about) = about.filter(|_| idle) {
            self.coverage.meet(&format!("{call}: {what} {about}"));
        }
    }

    /// Sends the calls as a group.
    pub fn send(mut self, packer: &mut Packer) {
        self.calls.extend(ending(Call::ShowChecker));
        packer.group(&self.calls);
    }
}
