//! Cases for the offers and ticks of a controller.

use super::forge::{
    alter, bare_controller, damage, delay_events, each_event, put_events, put_modes, put_place,
    put_refs, some_clock, some_request, spoil_sheet, CLOCKS,
};
use super::places::{open_pairs, some_open_pair};
use super::run::{ControllerRun, Form};
use crate::both::Both;
use crate::controller::Controller;
use crate::coverage::Coverage;
use crate::pair::{column_pins, Request};
use crate::random::Random;
use crate::script::{Call, Packer};
use crate::sheet::Sheet;
use crate::state::{self, ControllerNumbers};
use crate::suites::{by_wiring, pool};
use crate::wiring::{greatest_bank, greatest_row};

/// Counts on either side of the capacity.
const COUNTS: [u32; 7] = [0, 1, 2, 15, 16, 17, u32::MAX];

/// Both forms of a call.
const FORMS: [Form; 2] = [Form::Value, Form::Lent];

/// What is as great as allowed and must be met.
pub fn promised() -> Vec<String> {
    let mut promised = Vec::new();
    for call in ["offer", "lent offer", "tick", "lent tick"] {
        promised.extend(by_wiring(&format!("{call}: sixteen wait")));
        for name in Request::FIELDS {
            promised.extend(by_wiring(&format!("{call}: {name} at its greatest")));
        }
    }
    promised
}

/// Every ground alone and its edges; then the same on a sheet that is refused.
pub fn edges(random: &Random, packer: &mut Packer, coverage: &mut Coverage) {
    for clock in CLOCKS {
        for opened in 0..5 {
            let count = random.pick(&[1, 3, 16]);
            let bare = || bare_controller(random, &pool::sheet(random), (clock, opened, count));
            each_event(clock, bare, |numbers| {
                beside(random, packer, coverage, numbers)
            });
        }
    }
    let parts = pool::parts().into_iter().filter(|s| s.grade == 37);
    for sheet in parts.filter(|s| s.cl == 4) {
        queues(random, packer, coverage, &sheet);
    }
}

/// Every count with every kind of open pair, a request's at every place about its edges, and each field
/// of some waiting places out of its range.
fn queues(random: &Random, packer: &mut Packer, coverage: &mut Coverage, sheet: &Sheet) {
    for count in COUNTS {
        for opened in open_pairs(count) {
            let clock = some_clock(random).max(1);
            let bare = bare_controller(random, sheet, (clock, opened, count));
            beside(random, packer, coverage, bare);
        }
        for place in [0, 1, 7, 14, 15] {
            for field in 1..6 {
                let clock = some_clock(random).max(1);
                let opened = some_open_pair(random, count);
                let mut numbers = bare_controller(random, sheet, (clock, opened, count));
                put_place(&mut numbers, place, unfit_request(random, sheet, field));
                beside(random, packer, coverage, numbers);
            }
        }
    }
}

/// A request with one field out of its range, mostly by one.
fn unfit_request(random: &Random, sheet: &Sheet, field: usize) -> [u32; 6] {
    let mut request = some_request(random, sheet).numbers();
    let write = request[0] != 0;
    let beyond = if sheet.bl == 4 { 5 } else { 4 };
    request[field] = match field {
        1 => greatest_bank(sheet) + 1,
        2 => greatest_row(sheet) + 1,
        3 => column_pins(sheet) + 1,
        _ if !write || (field == 5 && sheet.org == 8) => 1,
        _ => random.pick(&[0, 3, beyond]),
    };
    if random.once_in(8) {
        request[field] = random.pick(&[u32::MAX, request[field] | 1 << 31]);
    }
    request
}

/// A state as it is; with more events late, or on a refused sheet.
fn beside(
    random: &Random,
    packer: &mut Packer,
    coverage: &mut Coverage,
    mut numbers: ControllerNumbers,
) {
    trial(random, packer, coverage, vec![], &numbers);
    if random.once_in(2) {
        return;
    }
    match random.below(3) {
        0 => delay_events(random, &mut numbers),
        _ => spoil_sheet(random, &mut numbers),
    }
    trial(random, packer, coverage, vec![], &numbers);
}

/// REF words in the places up to each m, so that rule 3 allows a pair for the last time, or allows only
/// its first word, or not even that; without and with a gap among the places.
pub fn refreshes(random: &Random, packer: &mut Packer, coverage: &mut Coverage) {
    for m in 1..=8 {
        for late in 0..3 {
            for gap in [false, m > 1] {
                let sheet = pool::sheet(random);
                let before = m * sheet.d() + late - 1;
                let clock = before + random.pick(&[200, 1_000_000]) + random.below(200);
                let opened = random.pick(&[0, 0, 0, 0, 0, 3]);
                let count = random.pick(&[1, 3, 16]);
                let mut numbers = bare_controller(random, &sheet, (clock, opened, count));
                put_modes(&mut numbers);
                put_refs(random, &mut numbers, (m, before, gap));
                trial(random, packer, coverage, vec![], &numbers);
            }
        }
    }
}

/// A state at random, with events near the edges of the rules, seldom with a fault.
pub fn forged(random: &Random, packer: &mut Packer, coverage: &mut Coverage) {
    let sheet = pool::sheet(random);
    let count = random.pick(&[0, 1, 1, 2, random.below(17), 16]);
    let opened = some_open_pair(random, count);
    let clock = some_clock(random);
    let mut numbers = bare_controller(random, &sheet, (clock, opened, count));
    put_events(random, &sheet, &mut numbers);
    match random.below(12) {
        0 => delay_events(random, &mut numbers),
        1 => spoil_sheet(random, &mut numbers),
        2 => {
            let place = random.below(16) as usize;
            let field = random.between(1, 5) as usize;
            put_place(&mut numbers, place, unfit_request(random, &sheet, field));
        }
        3 => damage(random, &mut numbers),
        _ => {}
    }
    trial(random, packer, coverage, vec![], &numbers);
}

/// A state that offers and ticks made, then with one number changed, at times the wiring.
pub fn near_real(random: &Random, packer: &mut Packer, coverage: &mut Coverage) {
    let sheet = pool::sheet(random);
    let mut controller = Controller::<Both>::fresh(sheet);
    let mut before = vec![pool::config(random, &sheet)];
    for _ in 0..random.below(24) {
        if random.once_in(2) {
            let request = some_request(random, &sheet);
            let _ = controller.offer(request);
            before.push(Call::Offer(request.numbers()));
        } else {
            let count = random.pick(&[1, 1, 2, 3, 10, 60, 200]);
            let _ = (0..count).try_for_each(|_| controller.tick().map(drop));
            before.push(Call::TickLent(count));
        }
    }
    before.push(Call::ShowController);
    let mut numbers = state::controller_numbers(&controller);
    alter(random, coverage, "controller", &mut numbers);
    trial(random, packer, coverage, before, &numbers);
}

/// A request for an offer, seldom out of its ranges.
fn some_offer(random: &Random, sheet: &Sheet) -> [u32; 6] {
    let fit = match sheet.refusal() {
        None => *sheet,
        Some(_) => pool::sheet(random),
    };
    match random.below(4) {
        0 => unfit_request(random, &fit, random.between(1, 5) as usize),
        _ => some_request(random, &fit).numbers(),
    }
}

/// Every call of either form from a state on, in any order.
fn trial(
    random: &Random,
    packer: &mut Packer,
    coverage: &mut Coverage,
    before: Vec<Call>,
    numbers: &ControllerNumbers,
) {
    let config = pool::config(random, &pool::sheet(random));
    let mut run = ControllerRun::put(coverage, config, before, numbers);
    let sheet = run.controller.sheet;
    let start = random.below(6);
    for turn in start..start + 6 {
        let form = FORMS[turn as usize % 2];
        match turn % 6 {
            0 | 1 => run.offer(form, some_offer(random, &sheet)),
            2 | 3 => run.tick_once(form),
            _ => run.tick(form, random.pick(&[1, 2, 5, 30])),
        }
    }
    run.send(packer);
}
