//! The promises of demand 3, checked sentence by sentence on what a program wrote for a list of
//! offers and ticks. Nothing of the reference controller is used here.

use crate::both::Both;
use crate::checker::{Checker, Step};
use crate::judge::LONGEST;
use crate::pair::{self, Operation, Request};
use crate::past::Past;
use crate::script::Call;
use crate::sheet::{Sheet, SHEET_E};
use crate::wiring;
use crate::word::{high, CS, DESL};

/// An accepted request with the clock by which its first word is due.
struct Accepted {
    request: Request,
    due: u32,
}

/// One list of calls from a fresh controller, as far as it has gone.
struct List {
    sheet: Sheet,
    /// Judges the words given.
    judge: Checker<Both>,
    /// The first word of an open pair.
    open: Option<u32>,
    accepted: Vec<Accepted>,
    /// The number of read and write pairs closed.
    closed: usize,
    seen: Vec<String>,
}

impl List {
    /// A list on a sheet, accepted or not.
    fn on(sheet: Sheet) -> List {
        List {
            sheet,
            judge: Checker::fresh(sheet),
            open: None,
            accepted: Vec::new(),
            closed: 0,
            seen: Vec::new(),
        }
    }

    /// The number of ticks accepted, which is the clock of the next word.
    fn clock(&self) -> u32 {
        self.judge.past.clock()
    }

    /// The requests that wait: accepted, and their closing word not given.
    fn waiting(&self) -> &[Accepted] {
        &self.accepted[self.closed..]
    }

    /// A word was given: it keeps every rule, and a read or write pair that it closes is that of
    /// the oldest waiting request, in time.
    fn given(&mut self, word: u32) -> Result<(), String> {
        let clock = self.clock();
        let verdict = self.judge.step(word);
        if verdict != Step::Pass {
            return Err(format!("the word at {clock} is no good: {verdict:?}"));
        }
        let Some(first) = self.open.take() else {
            self.open = Some(word).filter(|&w| !high(w, CS));
            return Ok(());
        };
        let reading = pair::read(&self.sheet, first, word);
        let Ok(reading) = reading else {
            return Err(format!(
                "the pair at {} cannot be read: {reading:?}",
                clock - 1
            ));
        };
        if let Operation::Access(request) = reading.operation {
            let Some(oldest) = self.waiting().first() else {
                return Err(format!("the pair at {} was not asked for", clock - 1));
            };
            if oldest.request != request {
                return Err(format!(
                    "the pair at {} is not the oldest request's",
                    clock - 1
                ));
            }
            let due = oldest.due;
            self.in_time(clock - 1, due)?;
            self.closed += 1;
        }
        Ok(())
    }

    /// The first word of a request stood at a clock and was due by another.
    fn in_time(&mut self, clock: u32, due: u32) -> Result<(), String> {
        if clock > due {
            return Err(format!("the first word at {clock} was due by {due}"));
        }
        let spare = match due - clock {
            0 => "0",
            1..=7 => "1 to 7",
            8..=31 => "8 to 31",
            _ => "32 or more",
        };
        self.seen
            .push(format!("first word before its bound by {spare}"));
        Ok(())
    }

    /// DESL was given up to a clock.
    fn idle_until(&mut self, clock: u32) -> Result<(), String> {
        while self.clock() < clock {
            self.given(DESL)?;
        }
        Ok(())
    }

    /// An offer is refused exactly for 26 and 27; an accepted one is due by the bound.
    fn offer(&mut self, numbers: &[u32; 6], line: &str) -> Result<(), String> {
        let request = Request::from_numbers(*numbers);
        let q = self.waiting().len() as u32;
        let answer = match (request.fits(&self.sheet), q) {
            (false, _) => "refused 26",
            (true, 16) => "refused 27",
            _ => "offered",
        };
        if line != answer {
            return Err(format!("the offer should have been answered {answer}"));
        }
        if line == "offered" {
            let s = &self.sheet;
            let due = self.clock().max(201) + (q + 1) * s.s() + s.rc() + s.refc;
            self.accepted.push(Accepted { request, due });
        }
        Ok(())
    }

    /// A line that answers ticks; true if it is the last one.
    fn tick(&mut self, before: u32, count: u32, line: &str) -> Result<bool, String> {
        let parts: Vec<&str> = line.split(' ').collect();
        let number = |i: usize| parts.get(i).and_then(|p| p.parse::<u32>().ok());
        match (parts[0], number(1), number(2)) {
            ("word", Some(clock), Some(word)) => {
                self.idle_until(clock)?;
                if self.clock() != clock {
                    return Err(format!("a word for clock {clock} came late"));
                }
                self.given(word)?;
                Ok(false)
            }
            ("clock", Some(clock), None) => {
                if Some(clock) != before.checked_add(count) {
                    return Err(format!("{count} ticks from {before} gave clock {clock}"));
                }
                self.idle_until(clock)?;
                Ok(true)
            }
            ("refused", Some(24), None) if count > LONGEST - before => {
                self.idle_until(LONGEST)?;
                Ok(true)
            }
            _ => Err(format!("no answer to {count} ticks from {before}: {line}")),
        }
    }

    /// The requests shown waiting are the accepted ones that no closed pair has carried.
    fn shown(&mut self, lines: &[&str]) -> Result<(), String> {
        let mut wanted = vec![format!("waiting {}", self.waiting().len())];
        for waits in self.waiting() {
            let texts = waits.request.numbers().map(|n| n.to_string());
            wanted.push(format!("request {}", texts.join(" ")));
        }
        if wanted != lines {
            return Err(format!("waiting should be {wanted:?}"));
        }
        self.seen
            .push("waiting shown as accepted and not yet carried".to_string());
        Ok(())
    }

    /// The list's end: no waiting request whose first word is not out has seen its bound pass. Gives
    /// what was seen, by the wiring.
    fn end(mut self) -> Result<Vec<String>, String> {
        let clock = self.clock();
        for (place, waits) in self.waiting().iter().enumerate() {
            let words = pair::write(&self.sheet, &Operation::Access(waits.request));
            let is_open = place == 0 && self.open.is_some() && words.map(|w| w.0).ok() == self.open;
            let granted = if is_open { clock - 1 } else { clock };
            if granted > waits.due {
                return Err(format!("a first word was due by {}", waits.due));
            }
        }
        self.seen.push("list ended".to_string());
        let banks = wiring::name(self.sheet.wiring);
        let seen = self.seen.iter().map(|name| format!("{name}, {banks}"));
        Ok(seen.collect())
    }
}

/// Checks every list of a script on the text that answered it. Gives names for the coverage, or the
/// call at fault and what it broke.
pub fn check(calls: &[Call], text: &str) -> Result<Vec<String>, (usize, String)> {
    let lines: Vec<&str> = text.lines().collect();
    let mut at = 0;
    let mut list = List::on(SHEET_E);
    let mut seen = Vec::new();
    for (i, call) in calls.iter().enumerate() {
        let place = |fault| (i, fault);
        let fit = list.sheet.refusal().is_none();
        let line = *lines.get(at).ok_or((i, "no line".to_string()))?;
        let before = list.clock();
        if let Some(sheet) = call.sheet() {
            seen.extend(list.end().map_err(place)?);
            list = List::on(sheet);
        }
        match call {
            Call::Offer(numbers) | Call::OfferLent(numbers) if fit => {
                list.offer(numbers, line).map_err(place)?
            }
            Call::Tick(count) | Call::TickLent(count) if fit => {
                while !list.tick(before, *count, lines[at]).map_err(place)? {
                    at += 1;
                    lines.get(at).ok_or((i, "no line".to_string()))?;
                }
            }
            Call::Waiting => {
                let more = list.waiting().len();
                let shown = lines.get(at..=at + more).unwrap_or(&[]);
                list.shown(shown).map_err(place)?;
                at += more;
            }
            Call::Walk(_) => at += 1,
            _ => {}
        }
        at += 1;
    }
    seen.extend(list.end().map_err(|fault| (calls.len(), fault))?);
    Ok(seen)
}
