//! The controller: codes 4, 5 and 9, and at random 11 and 12 for 4 and 5. What is written is compared
//! with the reference controller's and also held against the promises of demand 3.

use super::{by_wiring, names, pool, ranges, refusals, sheets};
use crate::coverage::Coverage;
use crate::judge::LONGEST;
use crate::pair::column_pins;
use crate::random::Random;
use crate::script::{Call, Packer};
use crate::sheet::{Sheet, SHEET_E};
use crate::wiring::{greatest_bank, greatest_row};

/// The number of ways in which a list of calls goes.
const WAYS: u32 = 10;

/// What this suite must meet.
pub fn promised() -> Vec<String> {
    let mut promised = names(9, &["waiting", "request"]);
    for code in [4, 11] {
        promised.extend(refusals(code, "refused"));
        promised.extend(names(code, &["offered", "refused 26", "refused 27"]));
        promised.extend(ranges::promised(code));
    }
    for code in [5, 12] {
        promised.extend(refusals(code, "refused"));
        promised.extend(names(code, &["word", "clock", "refused 24"]));
    }
    let seen = [
        "waiting shown as accepted and not yet carried",
        "first word before its bound by 8 to 31",
        "list ended",
    ];
    promised.extend(seen.into_iter().flat_map(by_wiring));
    promised
}

/// All cases of the suite.
pub fn cases(seed: u64, scale: u32, packer: &mut Packer, coverage: &mut Coverage) {
    let random = Random::new(seed);
    unfit_sheets(&random, packer);
    for sheet in pool::parts() {
        at_the_ends(&random, packer, coverage, &sheet);
    }
    for round in 0..scale {
        for (i, sheet) in pool::corners().into_iter().enumerate() {
            list(&random, packer, &sheet, (round + i as u32) % WAYS);
        }
        for way in 0..6_500 {
            let sheet = pool::sheet(&random);
            list(&random, packer, &sheet, way % WAYS);
        }
    }
    last_clock(&random, packer);
}

/// Sends a group of calls, each offer and tick by either form.
fn send(random: &Random, packer: &mut Packer, calls: Vec<Call>) {
    let either = |call| match call {
        Call::Offer(numbers) if random.once_in(2) => Call::OfferLent(numbers),
        Call::Tick(count) if random.once_in(2) => Call::TickLent(count),
        other => other,
    };
    let calls: Vec<Call> = calls.into_iter().map(either).collect();
    packer.group(&calls);
}

/// A request in range, of any bank among the given ones.
fn offer(random: &Random, sheet: &Sheet, banks: &[u32]) -> Call {
    let write = random.once_in(2);
    let bank = random.pick(banks);
    Call::Offer(pool::request(random, sheet, write, bank).numbers())
}

/// A request with one field out of range.
fn unfit_offer(random: &Random, sheet: &Sheet) -> Call {
    let write = random.once_in(2);
    let mut numbers = pool::request(random, sheet, write, random.below(8)).numbers();
    let (field, least) = random.pick(&[
        (1, greatest_bank(sheet) + 1),
        (2, greatest_row(sheet) + 1),
        (3, column_pins(sheet) + 1),
        (4, 5),
        (5, 5),
    ]);
    numbers[field] = random.pick(&[least, least + 1, least | 1 << 31, u32::MAX]);
    if random.once_in(3) {
        numbers[4] = random.pick(&[3, if write { 0 } else { 1 }]);
    }
    Call::Offer(numbers)
}

/// One list of calls on a sheet, going in the given way.
fn list(random: &Random, packer: &mut Packer, sheet: &Sheet, way: u32) {
    let all: Vec<u32> = (0..8).collect();
    let mut calls = vec![pool::config(random, sheet)];
    match way {
        0 => calls.push(Call::Tick(random.below(4 * sheet.d()))),
        1 => {
            calls.push(Call::Tick(random.pick(&[
                0,
                1,
                200,
                201,
                202,
                random.below(1_000),
            ])));
            calls.push(offer(random, sheet, &all));
            calls.push(Call::Tick(random.pick(&[1, 2, 250])));
        }
        2 => always_full(random, sheet, &all, &mut calls),
        3 => always_full(random, sheet, &[random.below(8)], &mut calls),
        4 => always_full(random, sheet, &[1, 6], &mut calls),
        5 => bursts(random, sheet, 20, 120, &mut calls),
        6 => bursts(random, sheet, 12, 2_000, &mut calls),
        7 => around_a_refresh(random, sheet, &mut calls),
        8 => tick_by_tick(random, sheet, &mut calls),
        _ => refused_between(random, sheet, &mut calls),
    }
    calls.push(Call::Tick(0));
    calls.push(Call::Waiting);
    send(random, packer, calls);
}

/// Offers until sixteen wait, and again after every few ticks.
fn always_full(random: &Random, sheet: &Sheet, banks: &[u32], calls: &mut Vec<Call>) {
    if random.once_in(2) {
        calls.push(Call::Tick(random.between(150, 260)));
    }
    for _ in 0..17 {
        calls.push(offer(random, sheet, banks));
    }
    let at_first = random.pick(&[1, 190, 210]);
    calls.push(Call::Tick(at_first));
    for _ in 0..100 {
        calls.push(Call::Tick(random.between(1, 12)));
        for _ in 0..random.between(1, 3) {
            calls.push(offer(random, sheet, banks));
        }
    }
}

/// Some offers at once, then some ticks, again and again.
fn bursts(random: &Random, sheet: &Sheet, rounds: u32, most: u32, calls: &mut Vec<Call>) {
    for _ in 0..rounds {
        let banks = random.pick(&[&[0][..], &[0, 1], &[0, 1, 2, 3, 4, 5, 6, 7]]);
        for _ in 0..random.pick(&[0, 1, 2, 5, 16, 18]) {
            calls.push(offer(random, sheet, banks));
        }
        if random.once_in(3) {
            calls.push(Call::Waiting);
        }
        calls.push(Call::Tick(random.below(most)));
    }
}

/// Offers before, in and after the third refresh, with some requests under way.
fn around_a_refresh(random: &Random, sheet: &Sheet, calls: &mut Vec<Call>) {
    let second_ref = 2 * sheet.rsc + sheet.refc + 1;
    let call_point = second_ref + sheet.d() - sheet.rc();
    calls.push(Call::Tick(call_point - random.below(16)));
    for _ in 0..random.below(3) {
        calls.push(offer(random, sheet, &[0, 1]));
    }
    for _ in 0..30 {
        calls.push(Call::Tick(1));
        if random.once_in(3) {
            calls.push(offer(random, sheet, &[0, 1]));
        }
        if random.once_in(10) {
            calls.push(Call::Waiting);
        }
    }
    calls.push(Call::Tick(random.below(200)));
}

/// One tick a call, the requests shown now and then.
fn tick_by_tick(random: &Random, sheet: &Sheet, calls: &mut Vec<Call>) {
    calls.push(offer(random, sheet, &[3]));
    calls.push(Call::Tick(random.below(195)));
    for _ in 0..100 {
        calls.push(Call::Tick(1));
        if random.once_in(6) {
            calls.push(offer(random, sheet, &[3, 4]));
        }
        if random.once_in(6) {
            calls.push(Call::Waiting);
        }
    }
}

/// Requests with a field out of range between others, with places open and with none.
fn refused_between(random: &Random, sheet: &Sheet, calls: &mut Vec<Call>) {
    for _ in 0..60 {
        calls.push(match random.below(4) {
            0 => Call::Tick(random.below(30)),
            1 => unfit_offer(random, sheet),
            _ => offer(random, sheet, &[0, 2, 7]),
        });
    }
    calls.push(Call::Waiting);
    calls.push(Call::Tick(random.below(300)));
}

/// Offers of banks and rows where their ranges end, by value and lent; those that fit are carried.
fn at_the_ends(random: &Random, packer: &mut Packer, coverage: &mut Coverage, sheet: &Sheet) {
    let mut calls = vec![pool::config(random, sheet)];
    for made in [Call::Offer, Call::OfferLent] {
        calls.extend(ranges::calls(random, coverage, sheet, made));
    }
    calls.extend([Call::Waiting, Call::Tick(300), Call::Waiting]);
    packer.group(&calls);
}

/// Sheets that are refused, before anything else is looked at.
fn unfit_sheets(random: &Random, packer: &mut Packer) {
    for sheet in sheets::refused() {
        let mut calls = vec![pool::config(random, &sheet)];
        calls.extend([0, 3].map(Call::Tick));
        for _ in 0..4 {
            calls.push(offer(random, &SHEET_E, &[0]));
            calls.push(unfit_offer(random, &SHEET_E));
            calls.extend([Call::Waiting, Call::Tick(1), Call::Tick(0)]);
        }
        send(random, packer, calls);
    }
}

/// The last clock: reached idle, with a request opened on the clock before it, and with requests
/// all along.
fn last_clock(random: &Random, packer: &mut Packer) {
    let mut calls = vec![pool::config(random, &SHEET_E), Call::Tick(LONGEST - 1)];
    calls.push(offer(random, &SHEET_E, &[0]));
    calls.extend([1, 1, 0, 5].map(Call::Tick));
    calls.push(Call::Waiting);
    for _ in 0..17 {
        calls.push(offer(random, &SHEET_E, &[0]));
    }
    calls.push(unfit_offer(random, &SHEET_E));
    calls.extend([Call::Tick(1), Call::Tick(0), Call::Waiting]);
    send(random, packer, calls);

    let sheet = Sheet {
        wiring: 4,
        ..pool::sheet(random)
    };
    let mut calls = vec![pool::config(random, &sheet), Call::Tick(u32::MAX)];
    calls.extend([1, 0, 1, 5].map(Call::Tick));
    calls.push(Call::Waiting);
    send(random, packer, calls);

    let sheet = pool::sheet(random);
    let mut calls = vec![pool::config(random, &sheet)];
    for _ in 0..1_700 {
        calls.push(offer(random, &sheet, &[0, 5]));
        calls.push(Call::Tick(random.below(20_000)));
    }
    calls.extend([Call::Tick(LONGEST), Call::Tick(0), Call::Waiting]);
    send(random, packer, calls);
}
