//! Damage to a trace: bits turned over, words lost, doubled or replaced.

use super::trace::Trace;
use crate::coverage::Coverage;
use crate::random::Random;
use crate::word::{high, DESL, PD};

/// The kinds of damage, of which bits turned over come most often.
const LOST: &str = "word lost";
const DOUBLED: &str = "word doubled";
const REPLACED: &str = "word replaced";
const TURNED: &str = "bit turned over";
const KINDS: [&str; 6] = [LOST, DOUBLED, REPLACED, TURNED, TURNED, TURNED];

/// The name of damage to a low word, or to one next to it.
fn about_a_sleep(kind: &str) -> String {
    format!("damaged about a sleep: {kind}")
}

/// What damage must meet.
pub fn promised() -> Vec<String> {
    [LOST, DOUBLED, REPLACED, TURNED]
        .map(about_a_sleep)
        .to_vec()
}

/// Damage in one to three places, anywhere.
pub fn damage(trace: &mut Trace, random: &Random, coverage: &mut Coverage) {
    for _ in 0..random.between(1, 3) {
        if trace.words.is_empty() {
            return;
        }
        let place = some_place(&trace.words, random);
        let kind = random.pick(&KINDS);
        let about = place.saturating_sub(1)..trace.words.len().min(place + 2);
        if trace.words[about].iter().any(|&word| !high(word, PD)) {
            coverage.meet(&about_a_sleep(kind));
        }
        match kind {
            LOST => drop(trace.words.remove(place)),
            DOUBLED => trace.words.insert(place, trace.words[place]),
            REPLACED => trace.words[place] = random.bits(),
            _ => trace.words[place] ^= 1 << random.below(if random.once_in(4) { 32 } else { 20 }),
        }
    }
}

/// A place in a trace, most often a busy one.
fn some_place(words: &[u32], random: &Random) -> usize {
    let busy: Vec<usize> = (0..words.len()).filter(|&i| is_busy(words, i)).collect();
    let anywhere = random.below(words.len() as u32) as usize;
    match busy.len() as u32 {
        0 => anywhere,
        _ if random.once_in(4) => anywhere,
        n => busy[random.below(n) as usize],
    }
}

/// Whether a word is part of a pair, or PD has come up or gone down there.
fn is_busy(words: &[u32], place: usize) -> bool {
    let low = |i: usize| !high(words[i], PD);
    let turned = place > 0 && low(place) != low(place - 1);
    turned || !low(place) && words[place] != DESL
}
