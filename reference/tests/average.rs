//! What the former rules let pass still passes. They asked that no word stand more than D after the last REF word before it, that PD
//! stay high, and knew no wake-up words.

use reference::coverage::Coverage;
use reference::history::History;
use reference::judge::{first_broken, judge, Verdict};
use reference::past::Past;
use reference::random::Random;
use reference::sheet::Sheet;
use reference::suites::{load, long, near, pool};
use reference::summary::Summary;

/// The number of words before the first breach by the former rules: 2 and 3 as they were, and no 13.
fn formerly_kept(sheet: &Sheet, words: &[u32]) -> usize {
    let mut past = History::fresh();
    let breach = words.iter().position(|&word| {
        let overdue = past.last_ref().is_some_and(|r| past.clock - r > sheet.d());
        let low = word >> 19 & 1 == 0;
        let others = past.broken(sheet, word);
        past.push(sheet, word);
        low || overdue || others.iter().any(|b| ![2, 3, 13].contains(&b.number))
    });
    breach.unwrap_or(words.len())
}

/// The number of words before the first breach.
fn kept(sheet: &Sheet, words: &[u32]) -> usize {
    first_broken(sheet, words).0.clock as usize
}

/// Traces near the rules: as many words as passed before pass, and of the whole traces some pass that
/// did not.
#[test]
fn what_passed_still_passes() {
    let random = Random::new(8);
    let (mut both, mut now_alone) = (0, 0);
    for way in 0..9_000 {
        let sheet = pool::sheet(&random);
        let words = near::near_words(&random, &mut Coverage::default(), sheet, way);
        let before = formerly_kept(&sheet, &words);
        assert!(before <= kept(&sheet, &words), "{sheet:?}, way {way}");
        if judge::<Summary>(&sheet, &words) == Verdict::Accepted {
            match before == words.len() {
                true => both += 1,
                false => now_alone += 1,
            }
        }
    }
    assert!(both > 1_000 && now_alone > 50, "{both}, {now_alone}");
}

/// Traces that put each refresh off for as long as the rule allows pass, and did not pass before.
#[test]
fn refreshes_put_off() {
    let random = Random::new(9);
    for sheet in pool::parts() {
        let traces = [
            load::idle(&sheet, 20_000),
            load::busy(&random, &sheet, 20_000),
            long::dense_words(&random, &sheet, 20_000),
        ];
        for words in traces {
            assert_eq!(judge::<Summary>(&sheet, &words), Verdict::Accepted);
            assert!(formerly_kept(&sheet, &words) < words.len());
        }
    }
}
