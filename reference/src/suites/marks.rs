//! Inputs for the marker program: every short length, those around the longest, and traces on
//! sheet E near the edges of the rules.

use super::{by_hand, load, long, near, runs, sleep};
use crate::both::Both;
use crate::coverage::Coverage;
use crate::hand_in::{marker_line, LONGEST_MARKED};
use crate::judge::RULES;
use crate::random::Random;
use crate::script::bytes;
use crate::sheet::SHEET_E;
use crate::word::{CS, DESL};

/// Parts of rules that no pair can break on sheet E, whose RBD and WRD a pair's two words fill.
const NEVER_ON_E: [&str; 2] = ["8 RBD", "8 WRD"];

/// What the inputs must meet.
pub fn promised() -> Vec<String> {
    let mut promised: Vec<String> = RULES.map(|n| format!("breach {n}")).collect();
    let others = [
        "accepted",
        "accepted, as long as allowed",
        "breach at the last clock",
        "input handed over at once",
        "input handed over in pieces",
        "input handed over from a file",
    ];
    promised.extend(others.map(str::to_string));
    let over = |number, rest| format!("refused {number}, {rest} bytes over whole words");
    promised.extend((0..4).map(|rest| over(25, rest)));
    promised.extend((1..4).map(|rest| over(29, rest)));
    let on_e = |part: &&str| !NEVER_ON_E.contains(part);
    promised.extend(
        near::EDGES
            .into_iter()
            .filter(on_e)
            .flat_map(near::promised_edge),
    );
    promised.extend(near::promised_refresh_edges());
    promised.extend(sleep::promised());
    promised.extend(by_hand::promised(&SHEET_E));
    promised.extend(runs::promised(SHEET_E.wiring));
    promised
}

/// All inputs, each handed to `send`.
pub fn inputs(seed: u64, scale: u32, coverage: &mut Coverage, send: &mut dyn FnMut(&[u8])) {
    let random = Random::new(seed);
    short(&random, send);
    around_the_longest(&random, send);
    let mut judged = |coverage: &mut Coverage, words: &[u32]| {
        near::count_broken(coverage, &SHEET_E, words);
        send(&bytes(words))
    };
    by_hand::each(&random, &SHEET_E, coverage, &mut judged);
    runs::each(&random, &SHEET_E, coverage, &mut judged);
    traces(&random, scale, coverage, send);
}

/// The two inputs that the paper gives the lines for, and every short length.
fn short(random: &Random, send: &mut dyn FnMut(&[u8])) {
    assert_eq!(marker_line::<Both>(&[]), "accepted 0\n");
    assert_eq!(marker_line::<Both>(&[0; 4]), "breach 0 2\n");
    assert_eq!(marker_line::<Both>(&bytes(&[CS])), "accepted 1\n");
    send(&[]);
    send(&[0; 4]);
    let start_up = bytes(&long::dense_words(random, &SHEET_E, 300));
    let noise: Vec<u8> = (0..40).map(|_| random.bits() as u8).collect();
    let contents = [
        &start_up[..40],
        &bytes(&[DESL; 10]),
        &bytes(&[CS; 10]),
        &bytes(&[&[CS][..], &[0; 9]].concat()),
        &noise,
        &[0; 40],
        &[0xFF; 40],
    ];
    for content in contents {
        for length in 0..=40 {
            send(&content[..length]);
        }
    }
}

/// Lengths around the longest: valid, and damaged at the first, the last and any word, or after it.
fn around_the_longest(random: &Random, send: &mut dyn FnMut(&[u8])) {
    let valid = bytes(&long::dense_words(random, &SHEET_E, 32_768));
    let idle = bytes(&vec![DESL; 1 << 18]);
    let asleep = bytes(&vec![CS; 1 << 18]);
    for length in (65_524..=65_548).chain([65_600, 70_000, 131_071, 131_072]) {
        send(&valid[..length]);
        send(random.pick(&[&idle[..length], &asleep[..length]]));
        let anywhere = random.below(LONGEST_MARKED as u32) as usize;
        for place in [3, 65_531, 65_535, 65_539, anywhere] {
            if place < length {
                let mut damaged = valid[..length].to_vec();
                damaged[place] ^= 0x80 >> random.below(8);
                send(&damaged);
            }
        }
    }
    for length in [(1 << 20) - 1, 1 << 20] {
        send(&idle[..length]);
        send(&vec![0; length]);
    }
    for bit in 0..32 {
        let mut damaged = valid[..LONGEST_MARKED].to_vec();
        damaged[LONGEST_MARKED - 4 + bit / 8] ^= 1 << (bit % 8);
        send(&damaged);
    }
}

/// Traces near the edges of the rules, words at random, and long traces, dense ones and sleeping ones, with
/// a little damage.
fn traces(random: &Random, scale: u32, coverage: &mut Coverage, send: &mut dyn FnMut(&[u8])) {
    for way in 0..3_000 * scale {
        let words = near::near_words(random, coverage, SHEET_E, way);
        near::count_broken(coverage, &SHEET_E, &words);
        send(&bytes(&words));
    }
    for _ in 0..100 * scale {
        send(&bytes(&near::random_words(random)));
    }
    for round in 0..40 * scale {
        let length = match round % 4 {
            0 => 16_384,
            _ => random.between(202, 16_384) as usize,
        };
        let mut words = match round % 2 {
            0 => long::dense_words(random, &SHEET_E, length),
            _ => load::sleeping(random, &SHEET_E, length),
        };
        words.truncate(length);
        send(&bytes(&words));
        let place = random.below(length as u32) as usize;
        words[place] ^= 1 << random.below(20);
        send(&bytes(&words));
    }
}
