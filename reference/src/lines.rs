//! The lines that the replay program writes for answers.

use crate::checker::Step;
use crate::counts::{numbers, Counts};
use crate::limits::Shown;
use crate::pair::{Operation, Reading};
use crate::time::Time;
use crate::walk::Move;

/// The line of a refusal.
pub fn refused(number: u32) -> String {
    format!("refused {number}\n")
}

/// The line of a walk's move, with the clock that it has reached.
pub fn moved(moved: Move, clock: u32) -> String {
    match moved {
        None => "end\n".to_string(),
        Some(Step::Pass) => format!("pass {clock}\n"),
        Some(Step::Breach { clock, number }) => format!("breach {clock} {number}\n"),
        Some(Step::Refused(number)) => refused(number),
    }
}

/// A word and numbers in decimal, with a blank before each.
pub fn numbered(word: &str, numbers: &[u32]) -> String {
    let texts: Vec<String> = numbers.iter().map(|n| format!(" {n}")).collect();
    format!("{word}{}\n", texts.concat())
}

/// The line of a sheet in the limits and the breach on it.
pub fn shown(shown: &Shown) -> String {
    let Shown { clock, number, .. } = shown;
    let breach = format!("breach {clock} {number} on");
    numbered(&breach, &shown.sheet.numbers())
}

/// The line of a length in time.
pub fn time(length: Result<Time, u32>) -> String {
    match length {
        Ok(Time { nanoseconds, rest }) => format!("time {nanoseconds} {rest}\n"),
        Err(number) => refused(number),
    }
}

/// The line of a pair that was read: what it stands for, and behind that the clocks of its data.
pub fn reading(reading: Result<Reading, u32>) -> String {
    let Reading { operation, data } = match reading {
        Ok(reading) => reading,
        Err(number) => return refused(number),
    };
    let (word, numbers) = match operation {
        Operation::Access(request) => ("access", request.numbers().to_vec()),
        Operation::Regular(a3) => ("regular", vec![a3 as u32]),
        Operation::Extended(value) => ("extended", vec![value]),
        Operation::Refresh => ("refresh", vec![]),
    };
    let data = [data.latency, data.length];
    numbered(word, &[&numbers[..], &data].concat())
}

/// The line of a tally.
pub fn counts(tally: Result<Counts, u32>) -> String {
    match tally {
        Ok(counts) => numbered("counts", &counts.numbers()),
        Err(number) => refused(number),
    }
}

/// The line of a tally with the refusal's number before its counts, which a refused one has too.
pub fn counts_anyway(tally: Result<Counts, u32>) -> String {
    let (number, counts) = numbers(tally);
    numbered("counts", &[&[number], &counts[..]].concat())
}
