//! The traces with runs around the edges of blocks: their verdicts by hand on many sheets, and what is promised of
//! them on sheet E.

use reference::coverage::Coverage;
use reference::random::Random;
use reference::sheet::{SHEET_E, SHEET_E_OF_FOUR};
use reference::suites::{pool, runs};

#[test]
fn the_verdicts_by_hand_hold_at_the_corners_of_the_sheets() {
    let random = Random::new(6);
    for sheet in pool::corners().into_iter().step_by(211) {
        runs::each(&random, &sheet, &mut Coverage::default(), &mut |_, _| {});
    }
}

#[test]
fn all_that_is_promised_is_met_on_sheet_e() {
    for sheet in [SHEET_E, SHEET_E_OF_FOUR] {
        let mut coverage = Coverage::default();
        runs::each(&Random::new(7), &sheet, &mut coverage, &mut |_, _| {});
        assert!(coverage.missing(&runs::promised(sheet.wiring)).is_empty());
    }
}
