//! How often each answer was met, so that a run cannot pass by never trying something.

use crate::script::Call;
use crate::wiring;
use std::collections::BTreeMap;

/// Counters by name: `code answer, wiring` for answers, other names for what a suite counts itself.
#[derive(Default)]
pub struct Coverage {
    pub met: BTreeMap<String, u64>,
}

impl Coverage {
    /// Counts one meeting.
    pub fn meet(&mut self, name: &str) {
        match self.met.get_mut(name) {
            Some(times) => *times += 1,
            None => {
                self.met.insert(name.to_string(), 1);
            }
        }
    }

    /// Counts the lines that answered a call, by the wiring that it goes by: refusals and breaches by
    /// number, also where a number stands beside the answer; others by their word.
    pub fn answer(&mut self, call: &Call, wiring: u32, lines: &[&str]) {
        let (code, banks) = (call.code(), wiring::name(wiring));
        for line in lines {
            let (name, numbers) = line.split_once(' ').unwrap_or((line, ""));
            let number = match (name, call) {
                ("breach", Call::CheckWithin(..)) => numbers.split(' ').nth(1),
                ("refused" | "breach" | "config", _) => numbers.split(' ').next_back(),
                ("tick", _) | ("counts", Call::CountAnyway(_)) => numbers.split(' ').next(),
                _ => None,
            };
            match number {
                Some(number) => self.meet(&format!("{code} {name} {number}, {banks}")),
                None => self.meet(&format!("{code} {name}, {banks}")),
            }
        }
    }

    /// Adds the counters of another.
    pub fn add(&mut self, other: Coverage) {
        for (name, times) in other.met {
            *self.met.entry(name).or_insert(0) += times;
        }
    }

    /// The names among those promised that were never met.
    pub fn missing(&self, promised: &[String]) -> Vec<String> {
        let unmet = promised.iter().filter(|name| !self.met.contains_key(*name));
        unmet.cloned().collect()
    }

    /// Prints what was met and what of the promised never was; true if all of it was met.
    pub fn report(&self, promised: &[String]) -> bool {
        for (name, times) in &self.met {
            println!("  {name}: {times}");
        }
        let missing = self.missing(promised);
        for name in &missing {
            println!("  NEVER MET: {name}");
        }
        missing.is_empty()
    }
}
