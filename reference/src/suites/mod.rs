//! The suites: generators of scripts, each with the answers that it promises to meet.

mod answered;
pub mod ba2;
pub mod by_hand;
pub mod checker;
pub mod controller;
mod damage;
pub mod data;
mod ending;
mod held;
pub mod limits;
pub mod load;
pub mod long;
pub mod marks;
pub mod near;
pub mod pairs;
pub mod pool;
pub mod power_down;
pub mod ranges;
pub mod relaxed;
pub mod rows;
pub mod runs;
pub mod scripts;
pub mod sheets;
pub mod sleep;
mod sleep_ending;
pub mod states;
pub mod tally;
pub mod time;
pub mod trace;

use crate::coverage::Coverage;
use crate::judge::RULES;
use crate::promises;
use crate::script::{Call, Packer};
use crate::wiring::{self, WIRINGS};

/// A check of calls and the text that answered them.
pub type Promise = fn(calls: &[Call], text: &str) -> Result<Vec<String>, (usize, String)>;

/// A suite of scripts.
pub struct Suite {
    pub name: &'static str,
    pub seed: u64,
    /// Sends the scripts to the packer and counts what the answers do not show.
    pub cases: fn(seed: u64, scale: u32, packer: &mut Packer, coverage: &mut Coverage),
    /// The names that its coverage must hold at the end.
    pub promised: fn() -> Vec<String>,
    /// A further check of what the program wrote for the calls: names for the coverage, or the
    /// call and the fault.
    pub promise: Option<Promise>,
}

/// All suites, in the order in which they run.
pub const SUITES: [Suite; 9] = [
    Suite {
        name: "rows",
        seed: 0x5EED_000D,
        cases: rows::cases,
        promised: rows::promised,
        promise: Some(rows::check),
    },
    Suite {
        name: "pairs",
        seed: 0x5EED_0001,
        cases: pairs::cases,
        promised: pairs::promised,
        promise: Some(data::check),
    },
    Suite {
        name: "checker",
        seed: 0x5EED_0002,
        cases: checker::cases,
        promised: checker::promised,
        promise: Some(data::check),
    },
    Suite {
        name: "controller",
        seed: 0x5EED_0003,
        cases: controller::cases,
        promised: controller::promised,
        promise: Some(promises::check),
    },
    Suite {
        name: "scripts",
        seed: 0x5EED_0004,
        cases: scripts::cases,
        promised: scripts::promised,
        promise: Some(promises::check),
    },
    Suite {
        name: "states",
        seed: 0x5EED_0008,
        cases: states::cases,
        promised: states::promised,
        promise: Some(data::check),
    },
    Suite {
        name: "relaxed",
        seed: 0x5EED_000A,
        cases: relaxed::cases,
        promised: relaxed::promised,
        promise: Some(relaxed::check),
    },
    Suite {
        name: "limits",
        seed: 0x5EED_000B,
        cases: limits::cases,
        promised: limits::promised,
        promise: None,
    },
    Suite {
        name: "time",
        seed: 0x5EED_000C,
        cases: time::cases,
        promised: time::promised,
        promise: Some(time::check),
    },
];

/// A name of coverage with each wiring.
pub fn by_wiring(name: &str) -> Vec<String> {
    let with = |wiring| format!("{name}, {}", wiring::name(wiring));
    WIRINGS.map(with).to_vec()
}

/// Names of coverage, `code answer` for each answer with each wiring.
fn names(code: u32, answers: &[&str]) -> Vec<String> {
    let name = |answer: &&str| by_wiring(&format!("{code} {answer}"));
    answers.iter().flat_map(name).collect()
}

/// Names of every breach with each wiring, for some codes.
fn breaches(codes: &[u32]) -> Vec<String> {
    let all: Vec<String> = RULES.map(|number| format!("breach {number}")).collect();
    let all: Vec<&str> = all.iter().map(String::as_str).collect();
    codes.iter().flat_map(|&code| names(code, &all)).collect()
}

/// Names of the sheet's own refusals, of which 34 is for a wiring that there is not.
fn refusals(code: u32, answer: &str) -> Vec<String> {
    let name = |number| match number {
        34 => vec![format!("{code} {answer} 34, {}", wiring::name(0))],
        _ => by_wiring(&format!("{code} {answer} {number}")),
    };
    sheets::REFUSALS.into_iter().flat_map(name).collect()
}

/// Names of the answers to both calls that start afresh, of which that without the wiring has eight
/// banks.
fn configs() -> Vec<String> {
    let of_eight = [0, 20, 21, 22, 33].map(|n| format!("1 config {n}, eight banks"));
    let wired = [names(13, &["config 0"]), refusals(13, "config")].concat();
    [&of_eight[..], &wired].concat()
}
