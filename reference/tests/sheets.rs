//! The sheet's own refusals, what CL 4 asks of REFC above all, and the sheets that the suites draw.

use reference::random::Random;
use reference::sheet::{Sheet, SHEET_E};
use reference::suites::{pool, sheets};

/// Sheet E at a period that every CL allows.
const SLOW: Sheet = Sheet {
    period: 6000,
    ..SHEET_E
};

/// A sheet of CL 4 that 33 refuses.
const SHORT: Sheet = Sheet {
    refc: 17,
    ..SHEET_E
};

/// The refusal of SHORT with another value in one field.
fn short_with(field: usize, value: u32) -> Option<u32> {
    SHORT.with(field, value).refusal()
}

#[test]
fn sheet_e_is_accepted_and_a_shorter_refc_is_not() {
    assert_eq!(SHEET_E.refusal(), None);
    assert_eq!(SHORT.refusal(), Some(33));
}

#[test]
fn refc_at_each_cl() {
    let wide = [
        (14, Some(22)),
        (15, None),
        (17, None),
        (18, None),
        (19, None),
        (63, None),
        (64, Some(22)),
    ];
    let mut narrow = wide;
    (narrow[1].1, narrow[2].1) = (Some(33), Some(33));
    for (cl, answers) in [(3, wide), (4, narrow), (5, wide)] {
        for (refc, answer) in answers {
            let sheet = Sheet { cl, refc, ..SLOW };
            assert_eq!(sheet.refusal(), answer, "CL {cl}, REFC {refc}");
        }
    }
}

#[test]
fn earlier_numbers_come_before_33() {
    // 260 is 4 in its low eight bits.
    for (field, value) in [(0, 38), (1, 6), (1, 260), (2, 3), (3, 4)] {
        assert_eq!(short_with(field, value), Some(20), "{field} at {value}");
    }
    for period in [0, 4499, 8501] {
        assert_eq!(short_with(4, period), Some(21), "period {period}");
    }
    let counts = [
        (5, 1),
        (5, 8),
        (6, 0),
        (6, 8),
        (7, 0),
        (7, 8),
        (8, 1),
        (8, 16),
        (9, 14),
        (9, 0),
    ];
    for (field, value) in counts {
        assert_eq!(short_with(field, value), Some(22), "{field} at {value}");
    }
}

#[test]
fn refusals_that_stand_together() {
    let all = Sheet {
        bl: 3,
        wiring: 5,
        period: 0,
        rbd: 0,
        ..SHORT
    };
    assert_eq!(all.refusals().collect::<Vec<_>>(), [20, 34, 21, 22, 33]);
    assert!(sheets::refused()
        .iter()
        .all(|sheet| sheet.refusal().is_some()));
}

#[test]
fn sheets_drawn_as_accepted_are() {
    let random = Random::new(7);
    let drawn = (0..5_000).map(|_| pool::sheet(&random)).collect();
    for sheet in [pool::parts(), pool::corners(), drawn].concat() {
        assert_eq!(sheet.refusal(), None, "{sheet:?}");
    }
    for sheet in [pool::short_parts(), pool::short_corners()].concat() {
        assert_eq!(sheet.refusal(), Some(33), "{sheet:?}");
    }
}
