//! The sentence about relaxed sheets, held to what a program wrote: what a sheet accepts, each sheet
//! that relaxes it accepts. Nothing of the reference's judge is used here.

use super::two_sheets::relaxes;
use crate::script::Call;
use crate::sheet::Sheet;

/// What a program wrote from one configuration to the next: the calls behind it, and each line that
/// answered them with the place of its call.
struct OnSheet<'a> {
    sheet: Sheet,
    calls: &'a [Call],
    lines: Vec<(usize, &'a str)>,
}

/// The calls that judge by their codes, and what each answers where nothing is in breach.
const GOOD: [(u32, &str); 3] = [(2, "pass"), (3, "accepted"), (10, "end")];

/// What the lines must show: that the sentence was held, and that its converse fails.
pub fn promised() -> Vec<String> {
    let mut promised = Vec::new();
    for (code, good) in GOOD {
        promised.push(name("relaxed", code, good, good));
        promised.push(name("relaxed", code, "breach", good));
        promised.push(name("relaxed", code, "breach", "breach"));
        promised.push(name("tightened", code, good, good));
        promised.push(name("tightened", code, good, "breach"));
    }
    promised
}

/// The name of two answers to a call, on a sheet and on the next.
fn name(how: &str, code: u32, old: &str, new: &str) -> String {
    format!("{how}, {code}: {old}, then {new}")
}

/// Checks the lines of any calls that were made on a sheet and then on one that relaxes it. Gives names
/// for the coverage, or the call at fault and both lines.
pub fn check(calls: &[Call], text: &str) -> Result<Vec<String>, (usize, String)> {
    let mut seen = Vec::new();
    let parts = by_sheet(calls, text);
    for (old, new) in parts.iter().zip(parts.iter().skip(1)) {
        let how = match old.calls == new.calls {
            true if relaxes(&old.sheet, &new.sheet) => "relaxed",
            true if relaxes(&new.sheet, &old.sheet) => "tightened",
            _ => continue,
        };
        for (&(_, a), &(call, b)) in old.lines.iter().zip(&new.lines) {
            if how == "relaxed" && !follows(a, b) {
                return Err((call, fault(old, a, new, b)));
            }
            seen.push(name(how, calls[call].code(), word(a), word(b)));
        }
    }
    Ok(seen)
}

/// The calls and lines of a script by their configurations, of which the first stands first of all.
fn by_sheet<'a>(calls: &'a [Call], text: &'a str) -> Vec<OnSheet<'a>> {
    let mut lines = text.lines();
    let mut place = 0;
    let mut parts = Vec::new();
    for part in calls.chunk_by(|_, next| next.sheet().is_none()) {
        let sheet = part[0].sheet().expect("a configuration");
        let mut own = Vec::new();
        for call in part {
            let count = if let Call::Walk(_) = call { 2 } else { 1 };
            own.extend(lines.by_ref().take(count).map(|line| (place, line)));
            place += 1;
        }
        // The configuration's own line says nothing of a trace.
        own.remove(0);
        parts.push(OnSheet {
            sheet,
            calls: &part[1..],
            lines: own,
        });
    }
    parts
}

/// The word that a line begins with.
fn word(line: &str) -> &str {
    line.split(' ').next().unwrap_or(line)
}

/// The clock and number of a line that tells a breach.
fn breach(line: &str) -> Option<(u32, u32)> {
    let (clock, number) = line.strip_prefix("breach ")?.split_once(' ')?;
    Some((clock.parse().ok()?, number.parse().ok()?))
}

/// Whether the second line may follow the first. What passed passes, with the same line. A breach may be
/// gone; one that is left stands no earlier, and at the same clock has no lower number. A call that was
/// refused behind a breach binds nothing.
fn follows(old: &str, new: &str) -> bool {
    match (breach(old), breach(new)) {
        (Some(old), Some(new)) => new >= old,
        (Some(_), None) => word(new) != "refused",
        (None, _) => word(old) == "refused" || new == old,
    }
}

/// What is said of two lines that do not follow.
fn fault(old: &OnSheet, a: &str, new: &OnSheet, b: &str) -> String {
    let (stricter, relaxed) = (old.sheet.numbers(), new.sheet.numbers());
    format!("a trace does worse on a relaxed sheet\n  {a} on {stricter:?}\n  {b} on {relaxed:?}")
}
