//! The script itself: calls of all codes mixed, the configuration at the start, and scripts that
//! are refused whole or from some call on.

use super::{configs, limits, names, pool, sheets, sleep, time, trace};
use crate::coverage::Coverage;
use crate::random::Random;
use crate::script::{bytes, Call, Packer, PairNumbers};
use crate::sheet::{Sheet, SHEET_E};
use crate::word::{CS, DESL, FN, PD};

/// What this suite must meet.
pub fn promised() -> Vec<String> {
    let mut promised = vec![
        "script refused".to_string(),
        "script without a line".to_string(),
    ];
    promised.extend(configs());
    let common = [
        "pass", "accepted", "offered", "clock", "access", "words", "counts",
    ];
    for (code, answer) in (2..).zip(common) {
        promised.extend(names(code, &[answer]));
    }
    promised.extend(names(9, &["waiting"]));
    promised.extend(names(10, &["end"]));
    promised.extend(names(11, &["offered"]));
    promised.extend(names(12, &["clock"]));
    promised.extend(names(14, &["time", "refused 32"]));
    promised.extend(names(15, &["always", "breach 6", "refused 35"]));
    promised
}

/// All cases of the suite.
pub fn cases(seed: u64, scale: u32, packer: &mut Packer, coverage: &mut Coverage) {
    let random = Random::new(seed);
    packer.raw(&[]);
    coverage.meet("script without a line");
    for _ in 0..200 * scale {
        let mixed = mixed(&random);
        packer.raw(&bytes(&mixed));
        let cut = random.below(mixed.len() as u32) as usize;
        packer.raw(&bytes(&mixed[..cut]));
        packer.raw(&bytes(&mixed)[..4 * cut + random.between(1, 3) as usize]);
        let code = random.pick(&[0, 10_000, 257, 0x0100_0000, u32::MAX]);
        packer.raw(&bytes(&[&mixed[..], &[code, 5, 1]].concat()));
    }
    for count in [1, 2, 16_384, u32::MAX] {
        for code in [3, 8, 10] {
            packer.raw(&bytes(&[6, PD, PD, code, count]));
        }
        packer.raw(&bytes(&[&[9], &within_e()[..], &[count]].concat()));
    }
    for cut in 1..=within_e().len() {
        packer.raw(&bytes(&[&[9], &within_e()[..cut]].concat()));
    }
    lengths(packer);
}

/// Scripts as long as allowed, and longer.
fn lengths(packer: &mut Packer) {
    let mut longest = vec![3, 16_382];
    longest.resize(16_384, DESL);
    packer.raw(&bytes(&longest));
    for code in [8, 10] {
        longest[0] = code;
        packer.raw(&bytes(&longest));
    }
    longest.push(9);
    packer.raw(&bytes(&longest));
    packer.raw(&bytes(&longest)[..65_537]);
    let mut longest = [&within_e()[..], &[16_384 - 13]].concat();
    longest.resize(16_384, DESL);
    packer.raw(&bytes(&longest));
    longest[12] += 1;
    packer.raw(&bytes(&longest));
    packer.raw(&[9]);
    packer.raw(&[9, 0, 0]);
}

/// A check within limits of the one sheet E, as far as the number of its words.
fn within_e() -> Vec<u32> {
    [&[15], &SHEET_E.numbers()[..]].concat()
}

/// Calls of all codes at random, from the configuration that stands at the start.
fn mixed(random: &Random) -> Vec<u32> {
    let mut sheet = SHEET_E;
    let mut script = Vec::new();
    for _ in 0..60 {
        let call = some_call(random, &sheet);
        sheet = call.sheet().unwrap_or(sheet);
        call.encode(&mut script);
    }
    script
}

/// One call of any code; most of its numbers fit the sheet.
fn some_call(random: &Random, sheet: &Sheet) -> Call {
    let fit = if sheet.refusal().is_some() {
        SHEET_E
    } else {
        *sheet
    };
    let kind = trace::some_kind(random);
    let operation = pool::operation(random, &fit, kind, random.below(8));
    let (first, second) = pool::noisy(random, &fit, kind, &operation);
    let low = sleep::low_word(random);
    let request = some_request(random, &fit);
    match random.below(23) {
        0 if random.once_in(3) => pool::config(random, &random.pick(&sheets::refused())),
        0 => pool::config(random, &pool::sheet(random)),
        1..=3 => Call::Step {
            count: random.below(40),
            word: DESL,
        },
        4 => Call::Step {
            count: random.below(3),
            word: random.pick(&[first, second, PD | FN, low]),
        },
        5 => Call::Check(vec![random.pick(&[DESL, low]); random.below(20) as usize]),
        6 => Call::Check(vec![DESL, first, second, DESL]),
        7 => Call::Offer(request),
        8..=9 => Call::OfferLent(request),
        10 => Call::Tick(random.below(150)),
        11..=12 => Call::TickLent(random.below(150)),
        13..=14 => Call::ReadPair(first, second),
        15 => Call::WritePair(PairNumbers::Access(request)),
        16 => Call::WritePair(PairNumbers::Regular(random.below(3))),
        17 => Call::WritePair(PairNumbers::Extended(random.below(66))),
        18 => Call::Count(vec![low, low & !CS, first, second, low, first]),
        19 => Call::Walk([low, DESL, DESL, first, second][..random.below(6) as usize].to_vec()),
        20 => some_within(random, &fit, &[low, DESL, DESL, first, second]),
        21 => Call::Time(time::some_count(random)),
        _ => Call::Waiting,
    }
}

/// A request that fits the sheet, or seldom one of a bank that there is not.
fn some_request(random: &Random, sheet: &Sheet) -> [u32; 6] {
    let mut request = pool::request(random, sheet, random.once_in(2), random.below(8)).numbers();
    if random.once_in(9) {
        request[1] = sheet.wiring;
    }
    request
}

/// A check within limits, mostly of the sheet and one with larger numbers, on the first of these words.
fn some_within(random: &Random, sheet: &Sheet, words: &[u32]) -> Call {
    let larger = limits::about(random, *sheet, &[4, 6, 9]).greatest;
    let greatest = random.pick(&[*sheet, larger, larger, pool::sheet(random)]);
    let count = random.below(words.len() as u32 + 1) as usize;
    Call::CheckWithin(greatest.numbers(), words[..count].to_vec())
}
