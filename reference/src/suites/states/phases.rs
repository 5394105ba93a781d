//! What the next word of a checker's state meets: numbers that stand for it, and what steps and walks
//! answer there.

use crate::checker::Step;
use crate::coverage::Coverage;
use crate::phase::Phase;
use crate::random::Random;
use crate::word::{CS, DESL, FN, PD};

/// What the next word meets, by name.
pub const STANDBY: &str = "standby";
pub const PAIR_OPEN: &str = "pair open";
pub const ASLEEP: &str = "asleep";
pub const WAKE_UP_DUE: &str = "wake-up word due";
pub const PHASES: [&str; 4] = [STANDBY, PAIR_OPEN, ASLEEP, WAKE_UP_DUE];

/// The name of what the next word meets.
fn phase_name(phase: Phase) -> &'static str {
    match phase {
        Phase::Standby => STANDBY,
        Phase::Open(_) => PAIR_OPEN,
        Phase::PowerDown => ASLEEP,
        Phase::WakeUp => WAKE_UP_DUE,
    }
}

/// A number for what the next word meets: the one that a word leaves, or any other of that meaning.
pub fn some_first(random: &Random, phase: &str) -> u32 {
    let bits = random.bits();
    let plain = random.once_in(2);
    match phase {
        STANDBY if plain => DESL,
        STANDBY => (bits | PD | CS) & !FN,
        PAIR_OPEN if plain => random.pick(&[PD, PD | FN, 0]),
        PAIR_OPEN => bits & !CS,
        ASLEEP if plain => CS,
        ASLEEP => (bits | CS) & !PD,
        WAKE_UP_DUE if plain => random.pick(&[PD | CS | FN, u32::MAX]),
        WAKE_UP_DUE => bits | PD | CS | FN,
        _ => unreachable!("a phase by its name"),
    }
}

/// The breaches that a word can have in each of these; it can pass in all.
const BREACHES: [(&str, &[u32]); 4] = [
    (STANDBY, &[1, 2, 3]),
    (PAIR_OPEN, &[1, 2, 3, 4, 5, 6, 7, 8, 9, 10, 11, 12]),
    (ASLEEP, &[1, 3, 13]),
    (WAKE_UP_DUE, &[1, 2, 3, 13]),
];

/// What a call that takes a word must meet.
pub fn promised(call: &str) -> Vec<String> {
    let mut promised = Vec::new();
    for (phase, numbers) in BREACHES {
        promised.push(format!("{call}, {phase}: pass"));
        let breach = |n| format!("{call}, {phase}: breach {n}");
        promised.extend(numbers.iter().map(breach));
    }
    promised
}

/// Counts the answer of a call that takes a word, unless it is refused.
pub fn count(coverage: &mut Coverage, call: &str, phase: Phase, answer: Step) {
    let phase = phase_name(phase);
    match answer {
        Step::Pass => coverage.meet(&format!("{call}, {phase}: pass")),
        Step::Breach { number, .. } => coverage.meet(&format!("{call}, {phase}: breach {number}")),
        Step::Refused(_) => {}
    }
}
