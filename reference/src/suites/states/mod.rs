//! States that are put number by number, most of them such as no calls make: codes 101 to 108.
//! After each call the whole state is shown.

mod checkers;
mod controllers;
mod forge;
mod limit;
mod lows;
mod meet;
mod phases;
mod places;
mod run;
mod tallies;

use super::{breaches, by_wiring, names, refusals};
use crate::coverage::Coverage;
use crate::ground::{Ground, LATE_CLOCK, NO_REQUEST, OPEN_AT_0, TOO_MANY};
use crate::ground::{ASLEEP_AT_0, WAKE_UP_AT_0, WAKE_UP_AT_1};
use crate::pair::Request;
use crate::random::Random;
use crate::script::{bytes, script, Call, Packer};
use crate::state::{CHECKER, CONTROLLER, OPEN};
use crate::summary::NAMES;
use crate::word::DESL;

/// What this suite must meet.
pub fn promised() -> Vec<String> {
    let mut promised = answers();
    for call in ["step", "walk"] {
        promised.extend(meet::promised_grounds(call, &checker_grounds()));
    }
    promised.extend(meet::promised_order("step", &["19", "23", "24"]));
    promised.extend(meet::promised_order("walk", &["19", "end", "23"]));
    for call in ["step", "walk"] {
        promised.extend(limit::promised_words(call));
        promised.extend(phases::promised(call));
        promised.extend(lows::promised(call));
    }
    promised.push("walk: end ahead of 24".to_string());
    for call in ["offer", "lent offer", "tick", "lent tick"] {
        promised.extend(meet::promised_grounds(call, &controller_grounds()));
        promised.extend(places::promised(call));
    }
    for call in ["offer", "lent offer"] {
        promised.extend(meet::promised_order(call, &["19", "26", "27"]));
    }
    for call in ["tick", "lent tick"] {
        promised.extend(meet::promised_order(call, &["19", "24"]));
        promised.extend(limit::promised_pairs(call));
    }
    promised.extend(controllers::promised());
    for state in ["checker", "controller"] {
        promised.extend(by_wiring(&forge::rewired_name(state)));
    }
    promised.extend(tallies::promised());
    promised.push("script refused".to_string());
    promised
}

/// The answers that must be met, by the codes of the calls.
fn answers() -> Vec<String> {
    let mut promised = [
        breaches(&[2, 108]),
        names(2, &["pass", "refused 19", "refused 23", "refused 24"]),
        names(108, &["pass", "end", "refused 19", "refused 23"]),
        names(103, &["checker"]),
        names(104, &["controller"]),
    ]
    .concat();
    for code in [2, 4, 5, 11, 12, 108] {
        promised.extend(refusals(code, "refused"));
    }
    for code in [4, 11] {
        promised.extend(names(
            code,
            &["offered", "refused 19", "refused 26", "refused 27"],
        ));
    }
    for code in [5, 12] {
        promised.extend(names(code, &["word", "clock", "refused 19", "refused 24"]));
    }
    for code in [105, 106] {
        promised.extend(names(code, &["tick 0", "tick 19", "tick 24"]));
        promised.extend(refusals(code, "tick"));
    }
    promised
}

/// Every ground of 19 that either state can have.
fn common_grounds() -> Vec<Ground> {
    [&NAMES[..], &[LATE_CLOCK, OPEN_AT_0]].concat()
}

/// Every ground of 19 that a checker can have.
fn checker_grounds() -> Vec<Ground> {
    let further = [ASLEEP_AT_0, WAKE_UP_AT_0, WAKE_UP_AT_1];
    [&common_grounds()[..], &further].concat()
}

/// Every ground of 19 that a controller can have.
fn controller_grounds() -> Vec<Ground> {
    let further = [TOO_MANY, NO_REQUEST];
    [&common_grounds()[..], &Request::FIELDS, &further].concat()
}

/// All cases of the suite.
pub fn cases(seed: u64, scale: u32, packer: &mut Packer, coverage: &mut Coverage) {
    let random = Random::new(seed);
    checkers::edges(&random, packer, coverage);
    controllers::edges(&random, packer, coverage);
    for _ in 0..6 * scale {
        checkers::refreshes(&random, packer, coverage);
        checkers::lows(&random, packer, coverage);
    }
    for _ in 0..24 * scale {
        controllers::refreshes(&random, packer, coverage);
    }
    for _ in 0..5_000 * scale {
        checkers::forged(&random, packer, coverage);
        controllers::forged(&random, packer, coverage);
    }
    for _ in 0..1_500 * scale {
        checkers::near_real(&random, packer, coverage);
        controllers::near_real(&random, packer, coverage);
    }
    tallies::each(&random, packer, coverage);
    cut_short(packer);
}

/// Scripts that end inside each of these calls, and numbers that name no call.
fn cut_short(packer: &mut Packer) {
    let calls = [
        Call::PutChecker(Box::new([7; CHECKER])),
        Call::PutController(Box::new([3; CONTROLLER])),
        Call::CountAnyway(vec![DESL; 5]),
        Call::Advance(vec![DESL; 5]),
    ];
    for call in calls {
        let script = script(&[call]);
        for length in 1..=script.len() {
            packer.raw(&bytes(&[&[103, 104], &script[..length]].concat()));
        }
    }
    for opened in [0, 1, 2, 3, 4, 5, 20, u32::MAX] {
        let mut script = vec![102];
        script.extend([1; CONTROLLER]);
        script[1 + OPEN] = opened;
        script.extend([104, 105, 103]);
        packer.raw(&bytes(&script));
    }
    for code in [100, 101 + 256, 101 + (1 << 16), 108 | 1 << 31] {
        packer.raw(&bytes(&[103, code, 104]));
    }
    for code in [107, 108] {
        packer.raw(&bytes(&[103, code, u32::MAX, DESL]));
    }
}
