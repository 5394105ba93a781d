//! Words for the tally, which judges nothing: PD low anywhere, unsound pairs, and what is met of them; and
//! sheets around their edges, whose refusals come first.

use super::{pool, sheets};
use crate::coverage::Coverage;
use crate::pair::{self, Kind};
use crate::random::Random;
use crate::script::{Call, Packer};
use crate::sheet::Sheet;
use crate::word::{high, opens, stray_bit, CS, DESL, FN, PD};

const LOW_CS_HIGH: &str = "tally: a low word with CS high, no pair open";
const LOW_CS_LOW: &str = "tally: a low word with CS low, no pair open";
const OPENS_BEHIND_LOW: &str = "tally: a pair opens right behind a low word";
const ENDS_OPEN: &str = "tally: a pair open at the end";

/// Faults for which a pair of any kind cannot be read, and those of a write and of a mode.
const OF_ANY: [&str; 3] = [
    "a stray bit in its first word",
    "a stray bit in its closing word",
    "PD low in its closing word",
];
const RESERVED: &str = "a reserved lane";
const WRONG_FIELDS: &str = "wrong fields";

/// The name of a pair of the kind that is counted with a fault.
fn unsound(kind: Kind, fault: &str) -> String {
    let kind = match kind {
        Kind::Read => "read",
        Kind::Write => "write",
        Kind::Regular | Kind::Extended => "mode",
        Kind::Refresh => "refresh",
    };
    format!("tally: a {kind} with {fault}")
}

/// What the words must meet.
pub fn promised() -> Vec<String> {
    let kinds = [Kind::Read, Kind::Write, Kind::Regular, Kind::Refresh];
    let mut promised = kinds
        .map(|kind| OF_ANY.map(|fault| unsound(kind, fault)))
        .concat();
    promised.push(unsound(Kind::Write, RESERVED));
    promised.push(unsound(Kind::Regular, WRONG_FIELDS));
    let others = [LOW_CS_HIGH, LOW_CS_LOW, OPENS_BEHIND_LOW, ENDS_OPEN];
    promised.extend(others.map(str::to_string));
    promised
}

/// Words at random, among them low ones that would open a pair if they were high.
pub fn some_words(random: &Random) -> Vec<u32> {
    let word = || {
        let low = random.pick(&[CS, 0, FN, CS | FN]);
        random.pick(&[DESL, PD, PD | FN, low, low, random.bits()])
    };
    (0..random.below(60)).map(|_| word()).collect()
}

/// Such words on accepted sheets, and on sheets around their edges, of which many are refused.
pub fn cases(random: &Random, scale: u32, packer: &mut Packer, coverage: &mut Coverage) {
    for _ in 0..200 * scale {
        let (sheet, words) = (pool::sheet(random), some_words(random));
        count(coverage, &sheet, &words);
        packer.group(&[pool::config(random, &sheet), Call::Count(words)]);
    }
    let mut visit = |sheet: Sheet| {
        sheets::count_order(coverage, &sheet);
        let tally = Call::Count(some_words(random));
        packer.group(&[pool::config(random, &sheet), tally]);
    };
    sheets::each_edge(&mut visit);
    sheets::each_fault(random, 2 * scale, &mut visit);
}

/// Counts what words on an accepted sheet meet of PD low and of unsound pairs.
pub fn count(coverage: &mut Coverage, sheet: &Sheet, words: &[u32]) {
    let mut open = None;
    let mut behind_low = false;
    for &word in words {
        let low = !high(word, PD);
        let opens = open.is_none() && opens(word);
        match open {
            Some(first) => count_faults(coverage, sheet, first, word),
            None if low && high(word, CS) => coverage.meet(LOW_CS_HIGH),
            None if low => coverage.meet(LOW_CS_LOW),
            None if opens && behind_low => coverage.meet(OPENS_BEHIND_LOW),
            _ => {}
        }
        behind_low = low && open.is_none();
        open = opens.then_some(word);
    }
    if open.is_some() {
        coverage.meet(ENDS_OPEN);
    }
}

/// Counts the faults of a pair.
fn count_faults(coverage: &mut Coverage, sheet: &Sheet, first: u32, second: u32) {
    let kind = pair::kind(first, second);
    let of_any = [stray_bit(first), stray_bit(second), !high(second, PD)];
    let reserved = kind == Kind::Write && pair::reserved_lane(sheet, second);
    let wrong = kind.is_mode() && !pair::mode_fields_fit(sheet, second);
    let own = [(RESERVED, reserved), (WRONG_FIELDS, wrong)];
    let faults = OF_ANY.into_iter().zip(of_any).chain(own);
    for (fault, _) in faults.filter(|(_, stands)| *stands) {
        coverage.meet(&unsound(kind, fault));
    }
}
