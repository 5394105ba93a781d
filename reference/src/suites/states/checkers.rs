//! Cases for the steps and walks of a checker.

use super::forge::{
    alter, damage, delay_events, each_event, put_events, put_refs, some_clock, spoil_sheet, CLOCKS,
};
use super::lows;
use super::phases::{some_first, ASLEEP, PAIR_OPEN, PHASES, STANDBY, WAKE_UP_DUE};
use super::run::CheckerRun;
use crate::both::Both;
use crate::checker::Checker;
use crate::coverage::Coverage;
use crate::judge::LONGEST;
use crate::phase::Phase;
use crate::random::Random;
use crate::script::{Call, Packer};
use crate::sheet::Sheet;
use crate::state::{self, bare_checker, CheckerNumbers, BREACH, CLOCK};
use crate::suites::sleep::{desl_word, low_word};
use crate::suites::{checker, near, pool, trace};
use crate::word::{CS, DESL, PD};

/// The longest trace that a walk is made over; eight times D, and some clocks, are in it.
const WALKED: u32 = 8_400;

/// Every ground alone and its edges: each event at and around each clock, whatever the next word meets;
/// then the same beside a recorded breach, and on a sheet that is refused.
pub fn edges(random: &Random, packer: &mut Packer, coverage: &mut Coverage) {
    for clock in CLOCKS {
        for phase in [STANDBY, PAIR_OPEN, PAIR_OPEN, ASLEEP, WAKE_UP_DUE] {
            let bare = || bare_checker(&pool::sheet(random), clock, some_first(random, phase));
            each_event(clock, bare, |numbers| {
                beside(random, packer, coverage, numbers)
            });
        }
    }
}

/// A state as it is; in breach; on a refused sheet; with more events late.
fn beside(random: &Random, packer: &mut Packer, coverage: &mut Coverage, numbers: CheckerNumbers) {
    trial(random, packer, coverage, vec![], &numbers);
    let mut breached = numbers;
    put_breach(random, &mut breached);
    trial(random, packer, coverage, vec![], &breached);
    let mut worse = if random.once_in(2) { numbers } else { breached };
    match random.below(3) {
        0 => delay_events(random, &mut worse),
        _ => spoil_sheet(random, &mut worse),
    }
    trial(random, packer, coverage, vec![], &worse);
}

/// Records a breach of any number at any clock.
fn put_breach(random: &Random, numbers: &mut CheckerNumbers) {
    let clock = numbers[CLOCK];
    numbers[BREACH] = random.pick(&[0, clock, clock.wrapping_add(1), u32::MAX]);
    numbers[BREACH + 1] = random.pick(&[1, 12, 13, 23, u32::MAX, 0]);
}

/// REF words in the places up to each m, the clock at the last one that rule 3 allows and one past it;
/// without and with a gap among the places, by themselves and among other events.
pub fn refreshes(random: &Random, packer: &mut Packer, coverage: &mut Coverage) {
    for m in 1..=8 {
        for (late, gap) in [(0, false), (1, false), (0, m > 1), (1, m > 1)] {
            for phase in [STANDBY, STANDBY, ASLEEP, WAKE_UP_DUE, PAIR_OPEN] {
                let sheet = pool::sheet(random);
                let first = some_first(random, phase);
                let before = m * sheet.d() + late;
                let early = before + random.between(1, 60);
                let clock = random.pick(&[early, early, early, LONGEST - 1]);
                let mut numbers = bare_checker(&sheet, clock, first);
                if random.once_in(2) {
                    put_events(random, &sheet, &mut numbers);
                }
                put_refs(random, &mut numbers, (m, before, gap));
                trial(random, packer, coverage, vec![], &numbers);
            }
        }
    }
}

/// States in which PD may go low, or may not, and a word with PD low.
pub fn lows(random: &Random, packer: &mut Packer, coverage: &mut Coverage) {
    for numbers in lows::states(random) {
        let sheet = state::checker(&numbers).sheet;
        let config = pool::config(random, &pool::sheet(random));
        let mut run = CheckerRun::put(coverage, config, vec![], &numbers);
        match random.once_in(2) {
            true => run.advance(walked(random, numbers[CLOCK], low_word(random))),
            false => run.step(low_word(random)),
        }
        run.step(some_word(random, &sheet, run.phase()));
        run.send(packer);
    }
}

/// A state at random, with events near the edges of the rules, seldom with a fault.
pub fn forged(random: &Random, packer: &mut Packer, coverage: &mut Coverage) {
    let sheet = pool::sheet(random);
    let kind = trace::some_kind(random);
    let operation = pool::operation(random, &sheet, kind, random.below(8));
    let (first, _) = pool::noisy(random, &sheet, kind, &operation);
    let other = some_first(random, random.pick(&PHASES));
    let first = random.pick(&[first, first, other, random.bits()]);
    let mut numbers = bare_checker(&sheet, some_clock(random), first);
    put_events(random, &sheet, &mut numbers);
    match random.below(12) {
        0 => delay_events(random, &mut numbers),
        1 => spoil_sheet(random, &mut numbers),
        2 => put_breach(random, &mut numbers),
        3 => damage(random, &mut numbers),
        _ => {}
    }
    trial(random, packer, coverage, vec![], &numbers);
}

/// A state that steps over a trace made, then with one number changed, at times the wiring.
pub fn near_real(random: &Random, packer: &mut Packer, coverage: &mut Coverage) {
    let sheet = pool::sheet(random);
    let mut words = near::near_words(random, &mut Coverage::default(), sheet, random.bits());
    words.truncate(random.below(words.len() as u32 + 1) as usize);
    let mut checker = Checker::<Both>::fresh(sheet);
    for &word in &words {
        checker.step(word);
    }
    let mut before = vec![pool::config(random, &sheet)];
    before.extend(checker::steps(&words));
    before.push(Call::ShowChecker);
    let mut numbers = state::checker_numbers(&checker);
    alter(random, coverage, "checker", &mut numbers);
    trial(random, packer, coverage, before, &numbers);
}

/// A word that may close the pair that is open, or may open one, go low, stay so or wake up.
fn some_word(random: &Random, sheet: &Sheet, phase: Phase) -> u32 {
    let fit = match sheet.refusal() {
        None => *sheet,
        Some(_) => pool::sheet(random),
    };
    let kind = trace::some_kind(random);
    let operation = pool::operation(random, &fit, kind, random.below(8));
    let (opening, closing) = pool::noisy(random, &fit, kind, &operation);
    let likely = match phase {
        Phase::Open(_) => closing,
        Phase::Standby => random.pick(&[opening, low_word(random)]),
        Phase::PowerDown | Phase::WakeUp => {
            random.pick(&[opening, low_word(random), desl_word(random)])
        }
    };
    match random.below(16) {
        0 => random.pick(&[0, u32::MAX, PD, DESL | 1 << 20]),
        1 => random.bits(),
        2 => random.pick(&[DESL, likely & !PD, likely & !CS]),
        _ => likely,
    }
}

/// A trace whose word at the clock is this one; it may also end before that.
fn walked(random: &Random, clock: u32, word: u32) -> Vec<u32> {
    if clock >= WALKED {
        return vec![word; random.below(3) as usize];
    }
    let mut words = vec![random.pick(&[DESL, 0]); clock as usize];
    if !random.once_in(5) {
        words.push(word);
        words.resize(words.len() + random.below(3) as usize, 0);
    }
    words
}

/// Steps and advances from a state on, in either order.
fn trial(
    random: &Random,
    packer: &mut Packer,
    coverage: &mut Coverage,
    before: Vec<Call>,
    numbers: &CheckerNumbers,
) {
    let sheet = state::checker(numbers).sheet;
    let config = pool::config(random, &pool::sheet(random));
    let mut run = CheckerRun::put(coverage, config, before, numbers);
    let word = |run: &CheckerRun| some_word(random, &sheet, run.phase());
    let walk_first = random.once_in(2);
    if walk_first {
        run.advance(walked(random, numbers[CLOCK], word(&run)));
    }
    run.step(word(&run));
    if !walk_first {
        run.advance(walked(random, run.clock(), word(&run)));
    }
    run.step(word(&run));
    run.send(packer);
}
