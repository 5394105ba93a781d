//! Refusal 19 on each of its grounds, the order of the refusals, and states put and shown.

use reference::both::Both;
use reference::checker::{Checker, Step};
use reference::controller::Controller;
use reference::coverage::Coverage;
use reference::judge::LONGEST;
use reference::pair::{self, Operation, Request};
use reference::past::Past;
use reference::random::Random;
use reference::sheet::SHEET_E;
use reference::state::{self, CheckerNumbers, ControllerNumbers};
use reference::state::{BREACH, CLOCK, CONTROLLER, COUNT, EVENT, OPEN, PLACE};
use reference::suites::{near, pool, sheets::SPOILED};
use reference::summary::EVENTS;
use reference::walk::Walk;
use reference::word::{DESL, PD};

const READ: [u32; 6] = [0, 7, 16_383, 255, 0, 0];
const WRITE: [u32; 6] = [1, 0, 0, 0, 4, 1];

/// A checker on sheet E that remembers nothing.
fn checker(clock: u32, first: u32) -> CheckerNumbers {
    state::bare_checker(&SHEET_E, clock, first)
}

/// A controller on sheet E with reads and writes waiting in turn, in all places.
fn controller(clock: u32, opened: u32, count: u32) -> ControllerNumbers {
    let mut numbers = [0; CONTROLLER];
    numbers[..BREACH].copy_from_slice(&checker(clock, opened)[..BREACH]);
    numbers[COUNT] = count;
    for place in 0..16 {
        let request = if place % 2 == 0 { READ } else { WRITE };
        numbers[PLACE + 6 * place..PLACE + 6 * place + 6].copy_from_slice(&request);
    }
    numbers
}

fn step(numbers: &CheckerNumbers) -> Step {
    state::checker(numbers).step(DESL)
}

/// What a tick and an offer are refused for; neither changes the state then.
fn refusals(numbers: &ControllerNumbers) -> [Option<u32>; 2] {
    let mut put = state::controller(numbers);
    let refusals = [
        put.tick().err(),
        put.offer(Request::from_numbers(READ)).err(),
    ];
    if refusals.iter().all(|r| r.is_some()) {
        assert_eq!(state::controller_numbers(&put), *numbers);
    }
    refusals
}

#[test]
fn clocks_of_a_checker() {
    assert_eq!(step(&checker(LONGEST - 1, DESL)), Step::Pass);
    assert_eq!(step(&checker(LONGEST, DESL)), Step::Refused(24));
    assert_eq!(step(&checker(LONGEST + 1, DESL)), Step::Refused(19));
    assert_eq!(step(&checker(0, PD)), Step::Refused(19));
    assert_eq!(
        step(&checker(1, PD)),
        Step::Breach {
            clock: 1,
            number: 5
        }
    );
}

#[test]
fn events_not_before_the_clock() {
    for event in EVENT..EVENT + EVENTS {
        for (value, late) in [
            (0, false),
            (49, false),
            (50, true),
            (51, true),
            (u32::MAX, true),
        ] {
            let mut numbers = checker(50, DESL);
            numbers[event] = value;
            assert_eq!(
                step(&numbers) == Step::Refused(19),
                late,
                "{event} at {value}"
            );
            let mut numbers = controller(50, 0, 0);
            numbers[event] = value;
            let refused = if late { Some(19) } else { None };
            assert_eq!(refusals(&numbers), [refused; 2], "{event} at {value}");
        }
    }
}

#[test]
fn what_waits_and_what_is_open() {
    assert_eq!(refusals(&controller(1, 4, 1)), [None; 2]);
    assert_eq!(refusals(&controller(1, 4, 0)), [Some(19); 2]);
    assert_eq!(refusals(&controller(0, 4, 1)), [Some(19); 2]);
    assert_eq!(refusals(&controller(1, 4 + 2, 3)), [None; 2]);
    assert_eq!(refusals(&controller(1, 4 + 3, 3)), [Some(19); 2]);
    assert_eq!(refusals(&controller(1, 4 + 15, 16)), [None; 2]);
    assert_eq!(refusals(&controller(1, 4 + 16, 16)), [Some(19); 2]);
    assert_eq!(refusals(&controller(1, u32::MAX, 16)), [Some(19); 2]);
    assert_eq!(refusals(&controller(0, 1, 0)), [Some(19); 2]);
    assert_eq!(refusals(&controller(LONGEST, 0, 16)), [Some(24), Some(27)]);
    assert_eq!(refusals(&controller(LONGEST, 0, 17)), [Some(19); 2]);
    for (place, field, value) in [(0, 1, 8), (1, 2, 16_384), (2, 3, 256), (3, 4, 3), (4, 5, 1)] {
        let mut numbers = controller(9, 0, 5);
        numbers[PLACE + 6 * place + field] = value;
        assert_eq!(refusals(&numbers), [Some(19); 2]);
        numbers[COUNT] = place as u32;
        assert_eq!(refusals(&numbers), [None; 2]);
    }
}

#[test]
fn refusals_in_their_order() {
    let mut numbers = checker(LONGEST, DESL);
    let walk = |numbers: &CheckerNumbers| Walk::at(state::checker(numbers), &[]).advance();
    assert_eq!((step(&numbers), walk(&numbers)), (Step::Refused(24), None));
    numbers[BREACH + 1] = 1;
    assert_eq!((step(&numbers), walk(&numbers)), (Step::Refused(23), None));
    numbers[EVENT] = LONGEST;
    assert_eq!(step(&numbers), Step::Refused(19));
    assert_eq!(walk(&numbers), Some(Step::Refused(19)));
    for (field, value, number) in SPOILED.into_iter().rev() {
        numbers[field] = value;
        assert_eq!(step(&numbers), Step::Refused(number));
        assert_eq!(walk(&numbers), Some(Step::Refused(number)));
    }
}

/// A sheet inside a controller's state is tested before all else, and the state stays.
#[test]
fn sheets_of_controllers() {
    for count in [0, 16, 17] {
        let mut numbers = controller(LONGEST, 0, count);
        for (field, value, number) in SPOILED.into_iter().rev() {
            numbers[field] = value;
            assert_eq!(refusals(&numbers), [Some(number); 2]);
        }
    }
}

/// Rule 3 goes by the furthest REF word of a state, D being 780, whatever stands in nearer places.
#[test]
fn the_furthest_refresh_decides() {
    for m in 1..=8 {
        for last in [0, 9_999] {
            let mut numbers = checker(10_000, DESL);
            numbers[EVENT + 13] = last;
            numbers[EVENT + 12 + m] = 10_000 - 780 * m as u32;
            assert_eq!(step(&numbers), Step::Pass, "m = {m}");
            numbers[CLOCK] = 10_001;
            let late = Step::Breach {
                clock: 10_001,
                number: 3,
            };
            assert_eq!(step(&numbers), late, "m = {m}");
        }
    }
}

/// A request that leaves: the younger ones move up, their last place is vacant, those behind stay.
#[test]
fn places_of_the_queue() {
    let mut numbers = controller(9, 4, 3);
    let mut put = state::controller(&numbers);
    put.tick().unwrap();
    let vacant = [0; 6];
    numbers[PLACE..PLACE + 18].copy_from_slice(&[WRITE, READ, vacant].concat());
    assert_eq!(state::controller_numbers(&put)[PLACE..], numbers[PLACE..]);
    put.offer(Request::from_numbers(WRITE)).unwrap();
    numbers[PLACE + 12..PLACE + 18].copy_from_slice(&WRITE);
    assert_eq!(state::controller_numbers(&put)[COUNT], 3);
    assert_eq!(state::controller_numbers(&put)[PLACE..], numbers[PLACE..]);
}

/// A request whose pair is open at another place than the first: its closing word goes out, and it leaves
/// from there, whatever is older.
#[test]
fn a_place_that_is_not_the_first() {
    for (place, request, left) in [
        (1, WRITE, [READ, READ, WRITE]),
        (2, READ, [READ, WRITE, WRITE]),
        (3, WRITE, [READ, WRITE, READ]),
    ] {
        let mut put = state::controller(&controller(9, 4 + place, 4));
        let access = Operation::Access(Request::from_numbers(request));
        let (_, closing) = pair::write(&SHEET_E, &access).unwrap();
        assert_eq!(put.tick(), Ok(closing), "place {place}");
        let after = state::controller_numbers(&put);
        assert_eq!((after[OPEN], after[COUNT]), (0, 3));
        assert_eq!(after[PLACE..PLACE + 18], left.concat());
        assert_eq!(after[PLACE + 18..PLACE + 24], [0; 6]);
        assert_eq!(after[PLACE + 24..], controller(9, 0, 4)[PLACE + 24..]);
    }
}

/// A checker that is put where a run stands goes on as the run does, which has its whole history.
#[test]
fn a_checker_put_goes_on_as_the_run() {
    let random = Random::new(5);
    for way in 0..600 {
        let sheet = pool::sheet(&random);
        let words = near::near_words(&random, &mut Coverage::default(), sheet, way);
        let turn = random.below(words.len() as u32 + 1) as usize;
        let mut run = Checker::<Both>::fresh(sheet);
        words[..turn].iter().for_each(|&word| {
            run.step(word);
        });
        let numbers = state::checker_numbers(&run);
        let mut put = state::checker(&numbers);
        assert_eq!(state::checker_numbers(&put), numbers);
        for &word in &words[turn..] {
            assert_eq!(put.step(word), run.step(word));
        }
        assert_eq!(state::checker_numbers(&put), state::checker_numbers(&run));
    }
}

/// A controller that is put as a run left it goes on as the run does.
#[test]
fn a_controller_put_goes_on_as_the_run() {
    let random = Random::new(6);
    for _ in 0..200 {
        let sheet = pool::sheet(&random);
        let mut run = Controller::<Both>::fresh(sheet);
        let mut put = run.clone();
        let turn = random.below(900);
        while run.past.clock() < 1_000 {
            if run.past.clock() == turn {
                put = state::controller(&state::controller_numbers(&run));
            }
            if random.once_in(8) {
                let request = pool::request(&random, &sheet, random.once_in(2), random.below(8));
                assert_eq!(put.offer(request), run.offer(request));
            }
            assert_eq!(put.tick(), run.tick());
        }
        assert_eq!(
            state::controller_numbers(&put),
            state::controller_numbers(&run)
        );
    }
}
