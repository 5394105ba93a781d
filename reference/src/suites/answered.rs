//! The lines that a program wrote, by the calls that they answer.

use crate::script::Call;
use crate::sheet::{Sheet, SHEET_E};
use std::iter::Peekable;
use std::str::Lines;

/// Each call of a script with the configuration that it goes by, and the last line that answers it, which
/// tells how it ended.
pub fn answered<'a>(
    calls: &'a [Call],
    text: &'a str,
) -> impl Iterator<Item = (Sheet, &'a Call, &'a str)> {
    let mut lines = text.lines().peekable();
    let mut sheet = SHEET_E;
    calls.iter().map(move |call| {
        sheet = call.sheet().unwrap_or(sheet);
        let line = last_line(call, &mut lines).unwrap_or("(no line)");
        (sheet, call, line)
    })
}

/// Takes the lines of a call, and gives the last of them that tells how it ended, if it writes any.
fn last_line<'a>(call: &Call, lines: &mut Peekable<Lines<'a>>) -> Option<&'a str> {
    match call {
        Call::PutChecker(_) | Call::PutController(_) => None,
        Call::Tick(_) | Call::TickLent(_) => lines.find(|line| !line.starts_with("word ")),
        Call::Walk(_) => lines.nth(1),
        Call::Waiting => {
            let line = lines.next();
            while lines.next_if(|line| line.starts_with("request ")).is_some() {}
            line
        }
        _ => lines.next(),
    }
}
