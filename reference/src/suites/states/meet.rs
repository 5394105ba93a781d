//! What of the refusals stands at a call on a state: counted by the one that is answered, by those
//! that it comes ahead of, and 19 by its ground.

use crate::coverage::Coverage;
use crate::ground::Ground;
use crate::past::Past;
use crate::sheet::Sheet;
use crate::suites::{by_wiring, sheets};
use crate::summary::{Summary, NAMES};
use crate::wiring;

/// The refusals of a state in their order: its sheet's own, then 19.
pub fn of_state(sheet: &Sheet, grounds: &[Ground]) -> Vec<String> {
    let mut standing: Vec<String> = sheet.refusals().map(|n| n.to_string()).collect();
    if !grounds.is_empty() {
        standing.push("19".to_string());
    }
    standing
}

/// Counts a call on a state of a sheet at which these answers stand, in their order. The grounds of
/// 19, and calls that are not refused, are counted by the wiring too.
pub fn meet(
    coverage: &mut Coverage,
    call: &str,
    sheet: &Sheet,
    grounds: &[Ground],
    standing: &[String],
) {
    let banks = wiring::name(sheet.wiring);
    let Some((answer, others)) = standing.split_first() else {
        return coverage.meet(&format!("{call}: not refused, {banks}"));
    };
    coverage.meet(&format!("{call}: {answer}"));
    for other in others {
        coverage.meet(&format!("{call}: {answer} ahead of {other}"));
    }
    if answer == "19" {
        coverage.meet(&match grounds {
            [only] => format!("{call}: 19 for {only} alone, {banks}"),
            _ => format!("{call}: 19 for several grounds, {banks}"),
        });
    }
}

/// Counts the events that stand one clock before that of a call, which is as late as allowed.
pub fn meet_latest(coverage: &mut Coverage, call: &str, sheet: &Sheet, past: &Summary) {
    let banks = wiring::name(sheet.wiring);
    for (name, event) in NAMES.into_iter().zip(past.events()) {
        if event != 0 && event + 1 == past.clock() {
            coverage.meet(&format!("{call}: {name} one clock before, {banks}"));
        }
    }
}

/// Each of the grounds alone, and each event as late as allowed.
pub fn promised_grounds(call: &str, grounds: &[Ground]) -> Vec<String> {
    let alone = |ground| format!("{call}: 19 for {ground} alone");
    let mut promised: Vec<String> = grounds.iter().map(alone).collect();
    let latest = |event| format!("{call}: {event} one clock before");
    promised.extend(NAMES.map(latest));
    promised.push(format!("{call}: 19 for several grounds"));
    promised.push(format!("{call}: not refused"));
    promised.iter().flat_map(|name| by_wiring(name)).collect()
}

/// The sheet's own answers and then these, in this order: each of them, and each ahead of each
/// later one.
pub fn promised_order(call: &str, further: &[&str]) -> Vec<String> {
    let mut promised = Vec::new();
    let mut order = sheets::REFUSALS.map(|n| n.to_string()).to_vec();
    order.extend(further.iter().map(|answer| answer.to_string()));
    for (i, answer) in order.iter().enumerate() {
        promised.push(format!("{call}: {answer}"));
        let ahead = |other| format!("{call}: {answer} ahead of {other}");
        promised.extend(order[i + 1..].iter().map(ahead));
    }
    promised
}
