//! The cases, in sections, and what they promise to meet.

mod lengths;
mod long;
mod sheets;
mod traces;

use crate::call::Form;
use crate::run::Run;
use reference::judge::RULES;
use reference::suites::sheets::{promised_order, REFUSALS};
use reference::suites::{by_hand, near, pool, runs};
use reference::wiring::{self, WIRINGS};

/// A section: its name and its cases.
pub type Section = (&'static str, fn(&mut Run, u32));

/// All sections, in the order in which they run.
pub const SECTIONS: [Section; 5] = [
    ("sheets", sheets::cases),
    ("lengths", lengths::cases),
    ("traces", traces::cases),
    ("threads", traces::threads),
    ("long", long::cases),
];

/// Every answer of each of the two calls with each wiring that it can be given.
fn promised_answers() -> Vec<String> {
    let mut answers: Vec<String> = RULES.map(|n| format!("breach {n}")).collect();
    answers.push("accepted".to_string());
    answers.extend([20, 21, 22, 24, 29, 33].map(|n| format!("refused {n}")));
    let mut promised = Vec::new();
    for (form, wiring) in [(Form::OfEight, 8), (Form::Wired, 8), (Form::Wired, 4)] {
        let (call, banks) = (form.name(), wiring::name(wiring));
        let of_call = answers
            .iter()
            .map(|what| format!("{call}: {what}, {banks}"));
        promised.extend(of_call);
    }
    let (call, none) = (Form::Wired.name(), wiring::name(0));
    promised.push(format!("{call}: refused 20, {none}"));
    promised.push(format!("{call}: refused 34, {none}"));
    promised
}

/// What a run of all sections must meet.
pub fn promised() -> Vec<String> {
    let mut promised = promised_answers();
    for number in REFUSALS {
        promised.push(format!("{number} ahead of 29"));
        promised.push(format!("{number} ahead of 24"));
    }
    promised.push("29 ahead of 24".to_string());
    promised.extend(promised_order());
    for address in 0..4 {
        promised.push(format!("judged at address {address} modulo 4"));
    }
    let others = [
        "trace up to the edge of memory",
        "no bytes at the null pointer",
        "numbers with other upper halves",
        "calls from two threads at once",
        "accepted with a pair open at the end",
        "accepted with PD low at the end",
        "accepted with a wake-up word due at the end",
        "0 to 70 bytes at every address",
    ];
    promised.extend(others.map(str::to_string));
    promised.extend(near::promised());
    promised.extend(pool::parts().iter().flat_map(by_hand::promised));
    promised.extend(WIRINGS.map(runs::promised).concat());
    promised.extend(long::promised());
    promised
}
