//! Times the archive's check beside plain one-pass checkers in C and in Rust and beside adding up the words,
//! in the same run, on four valid traces and in several layouts of the code. A measurement, not a test.

use reference::random::Random;
use reference::script::bytes;
use reference::sheet::SHEET_E;
use reference::suites::load;
use site::clock::thread_seconds;
use site::layouts::{Call, LAYOUTS};
use site::sound;
use std::hint::black_box;

const WORDS: usize = 8_000_000;
const ROUNDS: u32 = 7;
const SEED: u64 = 0x5EED_0007;
const HEAD: &str =
    "trace                        fcram       C    Rust  adding   fcram/C  fcram/Rust  fcram/adding";

/// The answer of a call and its million words a second.
fn timed(call: Call, trace: &[u8]) -> (u32, f64) {
    let start = thread_seconds();
    let answer = call(black_box(&SHEET_E), black_box(trace));
    let seconds = thread_seconds() - start;
    (answer, trace.len() as f64 / 4.0 / seconds / 1e6)
}

/// The best speed of each call in each layout, all of them in turn on a valid trace.
fn bests(words: &[u32]) -> Vec<[f64; 4]> {
    let (trace, sum) = (bytes(words), sound::sum(words));
    let mut bests = vec![[0.0_f64; 4]; LAYOUTS.len()];
    for _ in 0..ROUNDS {
        for (layout, bests) in LAYOUTS.iter().zip(&mut bests) {
            let checks = [layout.fcram, layout.c, layout.rust].map(|check| (check, 0));
            let calls = checks.into_iter().chain([(layout.sum, sum)]);
            for ((call, wanted), best) in calls.zip(bests) {
                let (answer, speed) = timed(call, &trace);
                assert_eq!(answer, wanted, "a valid trace");
                *best = best.max(speed);
            }
        }
    }
    bests
}

/// The one in the middle, or between the two in the middle.
fn median(mut numbers: Vec<f64>) -> f64 {
    numbers.sort_by(f64::total_cmp);
    let (low, high) = ((numbers.len() - 1) / 2, numbers.len() / 2);
    (numbers[low] + numbers[high]) / 2.0
}

/// Times all on a trace, and prints the medians of the speeds and of the ratios in each layout.
fn compare(name: &str, words: Vec<u32>) {
    let bests = bests(&words);
    let speed = |call: usize| median(bests.iter().map(|best| best[call]).collect());
    let ratio = |call: usize| median(bests.iter().map(|best| best[0] / best[call]).collect());
    let [fcram, c, rust, sum] = [0, 1, 2, 3].map(speed);
    let [to_c, to_rust, to_sum] = [1, 2, 3].map(ratio);
    println!(
        "{name:26}{fcram:8.0}{c:8.0}{rust:8.0}{sum:8.0}{to_c:10.2}{to_rust:12.2}{to_sum:14.2}"
    );
}

fn main() {
    sound::try_all(&Random::new(SEED + 1));
    let random = Random::new(SEED);
    println!("{WORDS} words each, sheet E, seed {SEED:#x}");
    let layouts = LAYOUTS.len();
    println!(
        "million words a second, medians over {layouts} layouts of the best of {ROUNDS} rounds"
    );
    println!("{HEAD}");
    compare("DESL and needed refreshes", load::idle(&SHEET_E, WORDS));
    compare("dense accesses", load::busy(&random, &SHEET_E, WORDS));
    compare("mixed at random", load::mixed(&random, &SHEET_E, WORDS));
    compare("sleeping", load::sleeping(&random, &SHEET_E, WORDS));
}
