//! The check of demand 3 lets a true text pass and finds each falsehood that a reviewer would try.

use reference::expected::answers;
use reference::promises::check;
use reference::script::{bytes, script, Call};

const READ: [u32; 6] = [0, 2, 7, 9, 0, 0];
const WRITE: [u32; 6] = [1, 3, 8, 10, 4, 1];
const UNFIT: [u32; 6] = [0, 8, 0, 0, 0, 0];

/// Three requests, ticks up to a clock, and what waits then, on sheet E.
fn list(ticks: u32) -> (Vec<Call>, String) {
    let calls = vec![
        Call::Offer(READ),
        Call::Offer(UNFIT),
        Call::OfferLent(WRITE),
        Call::Offer(READ),
        Call::Tick(ticks),
        Call::Waiting,
    ];
    let text = answers(&bytes(&script(&calls))).text;
    (calls, text)
}

/// Whether the check finds fault with the text after a change.
fn found(ticks: u32, change: impl Fn(&str) -> Option<String>) -> bool {
    let (calls, text) = list(ticks);
    assert_eq!(check(&calls, &text).err(), None);
    let changed: String = text
        .lines()
        .filter_map(change)
        .map(|line| line + "\n")
        .collect();
    assert_ne!(text, changed);
    check(&calls, &changed).is_err()
}

/// Puts one line in the place of another.
fn instead(old: &'static str, new: &'static str) -> impl Fn(&str) -> Option<String> {
    move |line| Some(if line == old { new } else { line }.to_string())
}

#[test]
fn a_controller_that_plays_only_start_up() {
    let start_up = |line: &str| !line.starts_with("word 20") && !line.starts_with("word 21");
    let idle = |line: &str| start_up(line).then(|| line.to_string());
    assert!(found(400, idle));
    let (calls, text) = list(400);
    let still: String = text
        .lines()
        .filter_map(idle)
        .map(|line| line + "\n")
        .collect();
    let waits = "waiting 3\nrequest 0 2 7 9 0 0\nrequest 1 3 8 10 4 1\nrequest 0 2 7 9 0 0\n";
    let (_, fault) = check(&calls, &still.replace("waiting 0\n", waits)).unwrap_err();
    assert!(fault.contains("due"), "{fault}");
}

#[test]
fn offers_refused_without_ground_or_taken_without() {
    assert!(found(9, instead("offered", "refused 27")));
    assert!(found(9, instead("offered", "refused 26")));
    assert!(found(9, instead("refused 26", "offered")));
    assert!(found(9, instead("refused 26", "refused 27")));
}

#[test]
fn ticks_refused_before_the_last_clock() {
    assert!(found(9, instead("clock 9", "refused 24")));
    assert!(found(9, instead("clock 9", "clock 8")));
}

#[test]
fn requests_faked_or_forgotten() {
    // The second request's column 10 becomes 11; its words four and one become four and four.
    assert!(found(400, instead("word 206 858122", "word 206 858123")));
    assert!(found(400, instead("word 206 858122", "word 206 856074")));
    assert!(found(
        9,
        instead("request 1 3 8 10 4 1", "request 1 3 8 10 4 2")
    ));
    assert!(found(9, |line| (line != "request 1 3 8 10 4 1")
        .then(|| line.to_string())));
}
