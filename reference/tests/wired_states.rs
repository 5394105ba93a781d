//! States of either wiring: which places of the banks are in use, what may wait, and what a controller does.

use reference::checker::Step;
use reference::controller::Controller;
use reference::history::History;
use reference::pair::Request;
use reference::sheet::{Sheet, SHEET_E, SHEET_E_OF_FOUR};
use reference::state::{self, bare_checker, CheckerNumbers};
use reference::state::{CLOCK, CONTROLLER, COUNT, EVENT, PLACE};
use reference::wiring::WIRINGS;
use reference::word::{BA2, DESL};

/// Places in the events of a state: the bank 0, and the reads.
const BANKS: usize = EVENT + 5;
const READ: usize = EVENT + 3;

/// Sheet E with a wiring.
fn wired(wiring: u32) -> Sheet {
    Sheet { wiring, ..SHEET_E }
}

/// A checker of four banks at clock 300 that is ready for reads, the first word of one being open.
fn open_read(first: u32) -> CheckerNumbers {
    let mut numbers = bare_checker(&SHEET_E_OF_FOUR, 300, first);
    (numbers[EVENT], numbers[EVENT + 1]) = (1, 8);
    (numbers[EVENT + 13], numbers[EVENT + 14]) = (33, 15);
    numbers
}

/// With four banks the places 4 to 7 bind no pair and are kept as they are; refusal 19 looks at all.
#[test]
fn events_of_the_banks_past_the_fourth() {
    for place in 0..8 {
        let mut numbers = open_read(0xB8000);
        numbers[BANKS + place] = 299;
        let mut checker = state::checker(&numbers);
        let breach = Step::Breach {
            clock: 300,
            number: 7,
        };
        let wanted = if place == 2 { breach } else { Step::Pass };
        assert_eq!(checker.step(DESL), wanted, "place {place}");
        if wanted == Step::Pass {
            (numbers[READ], numbers[BANKS + 2]) = (300, 300);
            let after = state::checker_numbers(&checker);
            assert_eq!(after[EVENT..EVENT + 21], numbers[EVENT..EVENT + 21]);
        }
        numbers[BANKS + place] = 300;
        let refused = state::checker(&numbers).step(DESL);
        assert_eq!(refused, Step::Refused(19), "place {place}");
    }
}

/// A waiting request is held to the ranges of the state's own wiring, which is tested before it.
#[test]
fn requests_of_states() {
    let requests = [
        ([0, 3, 16_383, 0, 0, 0], [None, None]),
        ([0, 4, 0, 0, 0, 0], [None, Some(19)]),
        ([0, 7, 0, 0, 0, 0], [None, Some(19)]),
        ([0, 0, 16_384, 0, 0, 0], [Some(19), None]),
        ([0, 0, 32_767, 0, 0, 0], [Some(19), None]),
        ([0, 8, 0, 0, 0, 0], [Some(19), Some(19)]),
        ([0, 0, 32_768, 0, 0, 0], [Some(19), Some(19)]),
    ];
    for (request, with) in requests {
        let mut numbers = [0; CONTROLLER];
        (numbers[CLOCK], numbers[COUNT]) = (9, 1);
        numbers[PLACE..PLACE + 6].copy_from_slice(&request);
        for (wiring, refused) in WIRINGS.into_iter().zip(with).chain([(5, Some(34))]) {
            numbers[..CLOCK].copy_from_slice(&wired(wiring).numbers());
            let mut put = state::controller(&numbers);
            assert_eq!(put.tick().err(), refused, "{request:?}, {wiring}");
        }
    }
}

/// The controller holds the second of two requests back for RC only where they are of one bank.
#[test]
fn the_controller_follows_its_wiring() {
    let second = [
        (wired(8), [0, 4, 0, 0, 0, 0], 203),
        (wired(4), [0, 0, 16_384, 0, 0, 0], 206),
    ];
    for (sheet, request, clock) in second {
        let mut controller = Controller::<History>::fresh(sheet);
        for numbers in [[0; 6], request] {
            controller.offer(Request::from_numbers(numbers)).unwrap();
        }
        let words: Vec<u32> = (0..210).map(|_| controller.tick().unwrap()).collect();
        assert_eq!((words[201], words[clock]), (0xA0000, 0xB0000));
        assert_eq!(words.iter().filter(|&&word| word & BA2 != 0).count(), 1);
    }
}
