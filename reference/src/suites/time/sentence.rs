//! The paper's sentence about time, held to what a program wrote. Nothing of the reference's own sum is
//! used here.

use super::meet;
use crate::judge::LONGEST;
use crate::script::Call;
use crate::sheet::Sheet;
use crate::suites::answered::answered;

/// Checks each line that answers for a length in time. Gives names for the coverage, or the call at fault
/// and what is wrong with its line.
pub fn check(calls: &[Call], text: &str) -> Result<Vec<String>, (usize, String)> {
    let mut seen = Vec::new();
    for (place, (sheet, call, line)) in answered(calls, text).enumerate() {
        if let Call::Time(count) = *call {
            if let Some(fault) = fault(&sheet, count, line) {
                return Err((place, fault));
            }
            seen.extend(meet::names(&sheet, count, line));
        }
    }
    Ok(seen)
}

/// What is wrong with a line. The sheet's refusal is due, or else 32 for too many words, or else a time:
/// nanoseconds times 1,000 plus the rest equals count times period, and the rest is below 1,000.
fn fault(sheet: &Sheet, count: u32, line: &str) -> Option<String> {
    let too_many = (count > LONGEST).then_some(32);
    if let Some(number) = sheet.refusal().or(too_many) {
        let due = format!("refused {number}");
        return (line != due).then(|| format!("{line}: {due} is due"));
    }
    let Some((nanoseconds, rest)) = told(line) else {
        return Some(format!("{line}: a time is due"));
    };
    let told = u128::from(nanoseconds) * 1_000 + u128::from(rest);
    let product = u128::from(count) * u128::from(sheet.period);
    if told != product {
        return Some(format!("{line}: {told} ps, and {product} are due"));
    }
    (rest >= 1_000).then(|| format!("{line}: the rest is not below 1,000"))
}

/// The nanoseconds and the rest that a line tells; none for a line of any other form.
pub fn told(line: &str) -> Option<(u64, u64)> {
    let (nanoseconds, rest) = line.strip_prefix("time ")?.split_once(' ')?;
    let told: (u64, u64) = (nanoseconds.parse().ok()?, rest.parse().ok()?);
    // A number with a sign or a 0 before it can be read, and is not how it should be written.
    (format!("time {} {}", told.0, told.1) == line).then_some(told)
}
