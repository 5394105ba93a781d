//! Power down in traces: PD low as soon as allowed and for some clocks, and what traces meet of it.

use super::trace::Trace;
use crate::coverage::Coverage;
use crate::history::{Broken, History};
use crate::past::Past;
use crate::phase::Phase;
use crate::random::Random;
use crate::word::{high, CS, DESL, FN, PD};

/// The pins that are ignored while PD stays low.
pub const BELOW_PD: u32 = PD - 1;

/// A shorter sleep may have another word at each of its clocks.
const VARIED: u32 = 12;

/// Where about a sleep a trace breaks a rule.
const CLOCK_0: &str = "at clock 0";
const ASLEEP: &str = "asleep";
const FIRST: &str = "in the first wake-up word";
const SECOND: &str = "in the second wake-up word";

/// The breaches that there are in each of these.
const BREACHES: [(&str, &[u32]); 4] = [
    (CLOCK_0, &[1, 2]),
    (ASLEEP, &[1, 3]),
    (FIRST, &[1, 3, 13]),
    (SECOND, &[1, 2, 3, 13]),
];

/// What else traces must meet of power down.
const MET: [&str; 9] = [
    "accepted, asleep at the end",
    "accepted, a wake-up word due at the end",
    "kept: PD low at clock 0",
    "kept: CS low while PD stays low",
    "kept: PD low for one clock",
    "kept at its edge: 3 while PD is low",
    "broken by one clock: 3 while PD stays low",
    "2 ahead of 3, no pair open",
    "broken by one clock: 3 at the clock where PD goes low",
];

/// What traces must meet of power down on any sheet.
pub fn promised() -> Vec<String> {
    let mut promised = MET.map(str::to_string).to_vec();
    for (place, numbers) in BREACHES {
        promised.extend(numbers.iter().map(|n| format!("breach {n} {place}")));
    }
    promised
}

/// A word that goes low, ignored pins at random or low.
pub fn low_word(random: &Random) -> u32 {
    CS | random.pick(&[0, FN, random.bits() & BELOW_PD])
}

/// A DESL word, ignored pins at random or low.
pub fn desl_word(random: &Random) -> u32 {
    DESL | random.pick(&[0, random.bits() & BELOW_PD])
}

impl Trace {
    /// PD goes low as soon as allowed. False if it cannot.
    pub fn go_low(&mut self, random: &Random, coverage: &mut Coverage) -> bool {
        let behind = self.past.pairs.last().map(|p| p.start + 2);
        if !self.put(&[low_word(random)], coverage) {
            return false;
        }
        if behind == Some(self.clock() - 1) {
            coverage.meet("kept at its edge: 2 pair open");
        }
        true
    }

    /// PD stays low up to a clock, the other pins at random.
    pub fn stay_low(&mut self, random: &Random, clock: u32) {
        let steady = random.bits() & BELOW_PD;
        let varied = clock < self.clock() + VARIED && random.once_in(2);
        while self.clock() < clock {
            self.word(match varied {
                true => random.bits() & BELOW_PD,
                false => steady,
            });
        }
    }

    /// Words up to a clock: DESL, or a sleep with none to two wake-up words behind it.
    pub fn pass_until(&mut self, random: &Random, clock: u32, coverage: &mut Coverage) {
        let low = [low_word(random)];
        let fits = self.earliest(&low).is_some_and(|low| low + 2 < clock);
        if fits && random.once_in(2) {
            self.go_low(random, coverage);
            let awake = random.pick(&[0, 0, 1, 2]);
            self.stay_low(random, clock - awake);
        }
        self.idle_until(clock);
    }

    /// One sleep, or some with as few clocks between them as allowed.
    pub fn power_down(&mut self, random: &Random, coverage: &mut Coverage) {
        for _ in 0..random.pick(&[1, 1, 1, 2, 3]) {
            if self.past.phase() == Phase::PowerDown {
                self.word(desl_word(random));
            }
            if !self.go_low(random, coverage) {
                return;
            }
            let clocks = random.pick(&[0, 0, 1, 2, 5, 30]);
            self.stay_low(random, self.clock() + clocks);
        }
        if random.once_in(3) {
            self.add(&[desl_word(random), desl_word(random)]);
        }
    }
}

/// Counts what of power down a trace meets: the words kept, and what is broken at the next.
pub fn count(coverage: &mut Coverage, kept: &History, words: &[u32], broken: &[Broken]) {
    count_kept(coverage, &words[..kept.clock as usize]);
    match (broken.first(), kept.phase()) {
        (Some(lowest), _) => {
            let low = !high(words[kept.clock as usize], PD);
            count_broken(coverage, kept, low, lowest.number);
            let overdue = broken.iter().any(|b| b.number == 3);
            if lowest.number == 2 && overdue && !kept.pair_open() {
                coverage.meet("2 ahead of 3, no pair open");
            }
        }
        (None, Phase::PowerDown) => coverage.meet("accepted, asleep at the end"),
        (None, Phase::WakeUp) => coverage.meet("accepted, a wake-up word due at the end"),
        _ => {}
    }
}

/// Counts a breach by where it stands: in a word that has PD low or not.
fn count_broken(coverage: &mut Coverage, kept: &History, low: bool, number: u32) {
    let place = match (kept.phase(), low) {
        (Phase::PowerDown, true) => Some(ASLEEP),
        (Phase::PowerDown, false) => Some(FIRST),
        (Phase::WakeUp, _) => Some(SECOND),
        _ => (kept.clock == 0).then_some(CLOCK_0),
    };
    if let Some(place) = place {
        coverage.meet(&format!("breach {number} {place}"));
    }
    match (number, kept.phase(), low) {
        (3, Phase::PowerDown, true) => coverage.meet("broken by one clock: 3 while PD stays low"),
        (3, _, true) => coverage.meet("broken by one clock: 3 at the clock where PD goes low"),
        _ => {}
    }
}

/// Counts what words that keep every rule meet of power down.
fn count_kept(coverage: &mut Coverage, words: &[u32]) {
    let low = |i: usize| words.get(i).is_some_and(|&word| !high(word, PD));
    if low(0) {
        coverage.meet("kept: PD low at clock 0");
    }
    let lows = (0..words.len()).filter(|&i| low(i));
    let stays = |i: &usize| *i > 0 && low(*i - 1);
    if lows.clone().any(|i| stays(&i) && !high(words[i], CS)) {
        coverage.meet("kept: CS low while PD stays low");
    }
    let woken = |i: &usize| *i + 1 < words.len() && !low(*i + 1);
    if lows.clone().any(|i| !stays(&i) && woken(&i)) {
        coverage.meet("kept: PD low for one clock");
    }
}
