//! The implementation against itself: the plain judge and controller against the fast path, pairs
//! written and read back, and the controller's traces against the judge.

use reference::checker::{Checker, Step};
use reference::controller::Controller;
use reference::data::DataClocks;
use reference::history::History;
use reference::judge::{judge, Verdict};
use reference::pair::{self, Kind, Operation, Reading};
use reference::past::Past;
use reference::random::Random;
use reference::sheet::{Sheet, SHEET_E};
use reference::suites::{load, pool, sleep};
use reference::summary::Summary;
use reference::word::{DESL, PD};

#[test]
fn pairs_written_are_read_back_whatever_the_ignored_pins() {
    let random = Random::new(1);
    for sheet in pool::parts() {
        for kind in Kind::ALL {
            for _ in 0..200 {
                let operation = pool::operation(&random, &sheet, kind, random.below(8));
                let (first, second) = pool::noisy(&random, &sheet, kind, &operation);
                let data = DataClocks::of(&sheet, kind);
                let reading = Reading { operation, data };
                assert_eq!(pair::read(&sheet, first, second), Ok(reading));
                assert_eq!(pair::kind(first, second), kind);
            }
        }
    }
}

/// A trace of pairs put where the plain judge allows them, most of them at once, and sleeps between some.
fn busy_trace(random: &Random, sheet: &Sheet, pairs: u32) -> Vec<u32> {
    let mut past = History::fresh();
    let mut words = Vec::new();
    for n in 0..pairs {
        let start_up = [Kind::Extended, Kind::Regular, Kind::Refresh, Kind::Refresh];
        let kind = *start_up.get(n as usize).unwrap_or(&random.pick(&Kind::ALL));
        let operation = pool::operation(random, sheet, kind, random.below(8));
        let pair = pool::noisy(random, sheet, kind, &operation);
        if random.once_in(4) {
            put(&mut past, &mut words, sheet, &[sleep::low_word(random)]);
            let stays = random.below(5);
            (0..stays).for_each(|_| push(&mut past, &mut words, sheet, random.bits() & (PD - 1)));
        }
        put(&mut past, &mut words, sheet, &[pair.0, pair.1]);
    }
    words
}

fn push(past: &mut History, words: &mut Vec<u32>, sheet: &Sheet, word: u32) {
    past.push(sheet, word);
    words.push(word);
}

/// Puts words, behind DESL until they break nothing or waiting does.
fn put(past: &mut History, words: &mut Vec<u32>, sheet: &Sheet, put: &[u32]) {
    let fits = |past: &History| match put {
        [first, second] => past.admits(sheet, (*first, *second)),
        _ => past.lowest(sheet, put[0]).is_none(),
    };
    while !fits(past) && past.lowest(sheet, DESL).is_none() {
        push(past, words, sheet, DESL);
    }
    put.iter().for_each(|&word| push(past, words, sheet, word));
}

#[test]
fn history_and_summary_judge_alike() {
    let random = Random::new(2);
    for _ in 0..150 {
        let sheet = pool::sheet(&random);
        let mut words = busy_trace(&random, &sheet, 60);
        for _ in 0..20 {
            let plain = judge::<History>(&sheet, &words);
            assert_eq!(plain, judge::<Summary>(&sheet, &words));
            let place = random.below(words.len() as u32) as usize;
            words[place] ^= 1 << random.below(20);
        }
    }
}

#[test]
fn loads_with_sleeps_keep_every_rule() {
    let random = Random::new(5);
    for sheet in pool::corners() {
        let words = load::sleeping(&random, &sheet, 20_000);
        assert_eq!(judge::<Summary>(&sheet, &words), Verdict::Accepted);
    }
    let words = load::sleeping(&random, &SHEET_E, 4_000_000);
    assert_eq!(judge::<Summary>(&SHEET_E, &words), Verdict::Accepted);
}

#[test]
fn steps_and_the_whole_check_agree() {
    let random = Random::new(3);
    for _ in 0..100 {
        let sheet = pool::sheet(&random);
        let words = busy_trace(&random, &sheet, 30);
        let mut checker = Checker::<History>::fresh(sheet);
        let mut first = Verdict::Accepted;
        for &word in &words {
            match checker.step(word) {
                Step::Breach { clock, number } => first = Verdict::Breach { clock, number },
                Step::Refused(number) => assert_eq!(number, 23),
                Step::Pass => {}
            }
        }
        assert_eq!(first, judge::<History>(&sheet, &words));
    }
}

#[test]
fn plain_and_fast_controllers_agree_and_pass_the_judge() {
    let random = Random::new(4);
    for _ in 0..60 {
        let sheet = pool::sheet(&random);
        let mut plain = Controller::<History>::fresh(sheet);
        let mut fast = Controller::<Summary>::fresh(sheet);
        let mut accepted = Vec::new();
        let mut words = Vec::new();
        let rate = random.pick(&[1, 3, 20, 200]);
        for _ in 0..2_500 {
            if random.once_in(rate) {
                let request = pool::request(&random, &sheet, random.once_in(2), random.below(8));
                let answer = plain.offer(request);
                assert_eq!(answer, fast.offer(request));
                if answer.is_ok() {
                    accepted.push(request);
                }
            }
            let word = plain.tick();
            assert_eq!(word, fast.tick());
            words.push(word.unwrap());
        }
        assert_eq!(judge::<History>(&sheet, &words), Verdict::Accepted);
        let mut carried = carried(&sheet, &words);
        carried.extend(plain.queue.waiting().iter().map(|r| Operation::Access(*r)));
        let accepted: Vec<Operation> = accepted.into_iter().map(Operation::Access).collect();
        assert_eq!(carried, accepted);
    }
}

/// The reads and writes of a trace's closed pairs.
fn carried(sheet: &Sheet, words: &[u32]) -> Vec<Operation> {
    let mut operations = Vec::new();
    let mut clock = 0;
    while clock + 1 < words.len() {
        match pair::read(sheet, words[clock], words[clock + 1]) {
            Ok(reading) => {
                operations.push(reading.operation);
                clock += 2;
            }
            Err(_) => clock += 1,
        }
    }
    operations.retain(|o| matches!(o, Operation::Access(_)));
    operations
}
