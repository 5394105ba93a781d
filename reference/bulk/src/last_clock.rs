//! Traces of greatest length that only one of the two given sheets breaks, at the last clock.

use crate::limits_cases::LONG;
use crate::run::Run;
use reference::judge::{judge, Verdict};
use reference::limits::Limits;
use reference::sheet::{Sheet, SHEET_E};
use reference::suites::load;
use reference::summary::Summary;
use reference::word::DESL;

/// The breaches at the last clock.
pub const NUMBERS: [u32; 2] = [8, 12];

/// A read, and a write 3 clocks after its LAL.
const READ_AND_WRITE: [u32; 6] = [0xA0000, 0xC0000, DESL, DESL, 0x84000, 0xD1000];

/// Both words of a refresh, as they are written.
const REFRESH: u32 = 0x80000;

/// W from 4993 to 5000 ps; at 4992 it is one more.
const W: usize = 641;

/// A distance of the refresh before those at the end: D allows it, and so does W of the eighth of these.
const BEFORE: usize = 600;

/// Both traces; all else in them is DESL and the refreshes that are due.
pub fn each(run: &mut Run) {
    let idle = load::idle(&SHEET_E, LONG[0].0);
    let rwd = Sheet { rwd: 4, ..SHEET_E };
    let period = Sheet {
        period: 4992,
        ..SHEET_E
    };
    broken_by_one(run, [SHEET_E, rwd], &soon_written(idle.clone()));
    broken_by_one(run, [period, SHEET_E], &nine_refreshes(idle));
}

/// Has a trace judged from one sheet to another, of which one is E and accepts it.
fn broken_by_one(run: &mut Run, [least, greatest]: [Sheet; 2], words: &[u32]) {
    assert_eq!(judge::<Summary>(&SHEET_E, words), Verdict::Accepted);
    let limits = Limits { least, greatest };
    run.limits::<Summary>(&limits, words, LONG[0].1);
}

/// At the end, a write so soon after a read as RWD 3 allows.
fn soon_written(mut words: Vec<u32>) -> Vec<u32> {
    let place = words.len() - READ_AND_WRITE.len();
    let before = &words[place - SHEET_E.refc as usize..place];
    assert!(before.iter().all(|&word| word == DESL), "a refresh is near");
    words[place..].copy_from_slice(&READ_AND_WRITE);
    words
}

/// At the end, nine refreshes as close as W allows at 5000 ps.
fn nine_refreshes(mut words: Vec<u32>) -> Vec<u32> {
    let first = words.len() - 1 - W;
    let mut earlier = words[..first - BEFORE].iter();
    let last = earlier.rposition(|&word| word == REFRESH).expect("one");
    // Everything comes later by so much that the last refresh before those is where it should be.
    let later = first - BEFORE - last;
    let kept = words.len() - later;
    words.copy_within(..kept, later);
    words[..later].fill(DESL);
    words[first - 1..].fill(DESL);
    let refs = (0..8).map(|n| first + n * SHEET_E.refc as usize);
    for clock in refs.chain([first + W]) {
        words[clock - 1..=clock].fill(REFRESH);
    }
    words
}
