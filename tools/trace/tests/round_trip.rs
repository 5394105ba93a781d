//! Words to text and back, on words of every sort.

mod common;

use common::{bytes, formats, good, round};
use reference::random::Random;
use trace::LONGEST;

const DESL: u32 = 0xC0000;
const SEED: u64 = 0x7ACE_0001;

/// Words as they occur: the paper's own, near misses of them, and anything.
fn word(random: &Random) -> u32 {
    match random.below(10) {
        0 => DESL,
        1 => 0x80000,
        2 => 0xA0000,
        3 => 0x80042,
        4 => random.pick(&[0, 0xFFFF_FFFF, 0xFFFFF]),
        5 => 0xD1000 | random.below(512),
        6 => 0xC0000 ^ (1 << random.below(32)),
        7 => 0x80000 | random.below(1 << 19),
        8 => random.below(1 << 20),
        _ => random.bits(),
    }
}

/// Runs of such words.
fn words(random: &Random, runs: u32) -> Vec<u32> {
    let mut words = Vec::new();
    for _ in 0..random.below(runs + 1) {
        let length = match random.below(3) {
            0 => 1,
            1 => random.between(1, 6),
            _ => random.between(1, 60),
        };
        words.extend(vec![word(random); length as usize]);
    }
    words
}

#[test]
fn random_runs() {
    let random = Random::new(SEED);
    for _ in 0..1_000 {
        let words = words(&random, 40);
        for format in formats() {
            round(&bytes(&words), format);
        }
    }
}

#[test]
fn random_words_and_a_rest() {
    let random = Random::new(SEED + 1);
    for length in 0..500 {
        let bytes: Vec<u8> = (0..length).map(|_| random.bits() as u8).collect();
        for format in formats() {
            round(&bytes, format);
        }
    }
}

/// Words over all twenty pins: with no pair open, closing a read or mode, closing a write or refresh.
#[test]
fn pins_in_every_place() {
    for format in formats() {
        for first in [None, Some(0xA0000), Some(0x80000)] {
            let lead = first.into_iter();
            let pins = (0..1 << 20).step_by(19);
            // The DESL in between closes a pair that the word may have opened.
            let words = pins.flat_map(|word| lead.clone().chain([word, DESL, DESL]));
            round(&bytes(&words.collect::<Vec<_>>()), format);
        }
    }
}

/// Runs of one word, at each length, after a closed pair, after an open one and asleep.
#[test]
fn runs_of_every_short_length() {
    for word in [
        0,
        0x40000,
        DESL,
        0x80000,
        0xA0000,
        0x84000,
        0xC0001,
        0xFFFF_FFFF,
    ] {
        for first in [0xC0000, 0xA0000, 0x80000, 0x40000, 0] {
            for length in 0..20 {
                let mut words = vec![first];
                words.extend(vec![word; length]);
                words.push(DESL);
                round(&bytes(&words), formats()[0]);
            }
        }
    }
}

#[test]
fn as_long_as_checked_and_longer() {
    for count in [16_777_216, 16_777_217] {
        for word in [DESL, 0x80000, 0x40000, 0] {
            round(&bytes(&vec![word; count]), formats()[0]);
        }
    }
    good(&format!("DESL x {LONGEST}\nat {LONGEST}"));
}
