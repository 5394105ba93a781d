//! The published rows: calls with the lines that answer them, on both edges, worked out from the papers.
//! The tests hold the reference to each line, and this suite holds what a program wrote to the same.

mod data;
mod limits;
mod power_down;
mod relaxed;
mod rule_3;
pub mod time;
mod wiring;

use crate::coverage::Coverage;
use crate::script::{Call, Packer};
use crate::sheet::{Sheet, SHEET_E};
use crate::written::{started, trace, At};

/// A row: a sheet, the call that is made on it, and the line that answers; without a call that of the
/// sheet itself.
pub struct Row {
    sheet: Sheet,
    call: Option<Call>,
    pub line: &'static str,
}

impl Row {
    /// The configuration and the call.
    pub fn calls(&self) -> Vec<Call> {
        let config = Call::ConfigWired(self.sheet.numbers());
        std::iter::once(config).chain(self.call.clone()).collect()
    }
}

/// The whole check: the sheet, the words at their clocks, and the line.
type Check = (Sheet, &'static [At<'static>], &'static str);

/// A row with a call.
fn row(sheet: Sheet, call: Call, line: &'static str) -> Row {
    let call = Some(call);
    Row { sheet, call, line }
}

/// The whole check on words behind the start-up.
fn of_started((sheet, words, line): Check) -> Row {
    row(sheet, Call::Check(started(words)), line)
}

/// The whole check on words with no start-up.
fn of_bare((sheet, words, line): Check) -> Row {
    row(sheet, Call::Check(trace(words)), line)
}

/// Sheet E with other counts.
const fn counts(rbd: u32, rwd: u32, wrd: u32, rsc: u32, refc: u32) -> Sheet {
    Sheet {
        rbd,
        rwd,
        wrd,
        rsc,
        refc,
        ..SHEET_E
    }
}

/// Sheet E with another period.
const fn of_period(period: u32) -> Sheet {
    Sheet { period, ..SHEET_E }
}

/// Sheet E with another CL and BL.
const fn of_part(cl: u32, bl: u32) -> Sheet {
    Sheet { cl, bl, ..SHEET_E }
}

/// Sheet E by 8.
const BY_8: Sheet = Sheet { org: 8, ..SHEET_E };

/// The rows by what they are about.
pub fn parts() -> [(&'static str, Vec<Row>); 7] {
    [
        ("rule 3", rule_3::rows()),
        ("wiring", wiring::rows()),
        ("power down", power_down::rows()),
        ("relaxed", relaxed::rows()),
        ("limits", limits::rows()),
        ("time", time::rows()),
        ("data", data::rows()),
    ]
}

/// All rows, each with a name of its own.
pub fn named() -> Vec<(String, Row)> {
    let name = |part, (place, row): (usize, Row)| {
        let name = format!("{part}, row {place}: {}", row.line);
        (name, row)
    };
    let of = |(part, rows): (_, Vec<Row>)| (1..).zip(rows).map(move |row| name(part, row));
    parts().into_iter().flat_map(of).collect()
}

/// What this suite must meet: every row.
pub fn promised() -> Vec<String> {
    named().into_iter().map(|(name, _)| name).collect()
}

/// All cases of the suite.
pub fn cases(_seed: u64, _scale: u32, packer: &mut Packer, _coverage: &mut Coverage) {
    let rows = named().into_iter();
    rows.for_each(|(_, row)| packer.group(&row.calls()));
}

/// Holds the line of each row to the published one; every call here writes one line. Gives the names of the
/// rows, or the call at fault and what is wrong with its line.
pub fn check(calls: &[Call], text: &str) -> Result<Vec<String>, (usize, String)> {
    let lines: Vec<&str> = text.lines().collect();
    let rows = named();
    let (mut seen, mut end) = (Vec::new(), 0);
    for group in calls.chunk_by(|_, next| next.sheet().is_none()) {
        end += group.len();
        let line = lines.get(end - 1).unwrap_or(&"(no line)");
        for (name, row) in rows.iter().filter(|(_, row)| row.calls() == group) {
            if *line != row.line {
                return Err((end - 1, format!("{line}: {} is published", row.line)));
            }
            seen.push(name.clone());
        }
    }
    Ok(seen)
}
