//! The eight cases of the scope paper with both of their edges, and its figures.

use reference::both::Both;
use reference::checker::Step;
use reference::controller::Controller;
use reference::counts::counts;
use reference::data::DataClocks;
use reference::expected::expected;
use reference::history::History;
use reference::judge::{breach, check, judge, Verdict, LONGEST};
use reference::pair::{self, Operation, Reading, Request};
use reference::sheet::{Sheet, SHEET_E};
use reference::summary::Summary;
use reference::walk::Walk;
use reference::word::DESL;
use reference::written::{started, trace, At, RDA, READ, READ_OF_1, REFRESH, REGULAR};
use reference::written::{UP_TO_NINE, WRITE, WRITE_OF_1};

/// Judges words at their clocks after the start-up.
fn after_start_up(words: &[At]) -> Verdict {
    verdict(&started(words))
}

fn verdict(words: &[u32]) -> Verdict {
    judge::<Both>(&SHEET_E, words)
}

const ACCEPTED: Verdict = Verdict::Accepted;

#[test]
fn figures_of_sheet_e() {
    assert_eq!(SHEET_E.refusal(), None);
    let figures = (
        SHEET_E.rc(),
        SHEET_E.wl(),
        SHEET_E.d(),
        SHEET_E.w(),
        SHEET_E.s(),
    );
    assert_eq!(figures, (5, 3, 780, 641, 5));
    assert_eq!(DESL, 0xC0000);
}

#[test]
fn case_a_start_up_of_the_controller() {
    let mut controller = Controller::<History>::fresh(SHEET_E);
    controller.offer(Request::from_numbers([0; 6])).unwrap();
    let words: Vec<u32> = (0..202).map(|_| controller.tick().unwrap()).collect();
    assert_eq!(words, started(&[(201, &[RDA])]));
    assert_eq!(after_start_up(&[(200, &READ)]), breach(201, 6));
    assert_eq!(after_start_up(&[(200, &[RDA])]), ACCEPTED);
}

#[test]
fn case_b_same_bank() {
    let two = |clock| after_start_up(&[(201, &READ), (clock, &READ)]);
    assert_eq!(two(206), ACCEPTED);
    assert_eq!(two(205), breach(206, 7));
}

#[test]
fn case_c_read_then_write() {
    let two = |clock| after_start_up(&[(201, &READ), (clock, &WRITE_OF_1)]);
    assert_eq!(two(205), ACCEPTED);
    assert_eq!(two(204), breach(205, 8));
}

#[test]
fn case_d_write_then_read() {
    let two = |clock| after_start_up(&[(201, &WRITE), (clock, &READ_OF_1)]);
    assert_eq!(two(203), ACCEPTED);
}

#[test]
fn case_e_refresh_in_time() {
    let last = |clock| -> At { (clock, &[DESL]) };
    assert_eq!(after_start_up(&[(812, &REFRESH)]), ACCEPTED);
    assert_eq!(after_start_up(&[last(1575)]), ACCEPTED);
    assert_eq!(after_start_up(&[last(1576)]), breach(1576, 3));
    // A REF word at the last clock counts for the next one, and one clock later does not help itself.
    let late = |clock| after_start_up(&[(1574, &REFRESH), last(clock)]);
    assert_eq!(late(2355), ACCEPTED);
    assert_eq!(late(2356), breach(2356, 3));
    assert_eq!(after_start_up(&[(1575, &REFRESH)]), breach(1576, 3));
}

/// A trace without modes whose REF words stand at these clocks, up to a clock.
fn refreshes(refs: &[u32], last: u32) -> Vec<u32> {
    let refresh = |clock: &u32| -> At { (*clock as usize - 1, &REFRESH) };
    let mut words = trace(&refs.iter().map(refresh).collect::<Vec<_>>());
    words.resize(last as usize + 1, DESL);
    words
}

/// REF words as close as REFC and W allow, from 15 on.
const BUNCH: [u32; 10] = [15, 33, 51, 69, 87, 105, 123, 141, 656, 674];

/// The last clock allowed after so many of these, D being 780: up to eight times D after the first of
/// them, then after the second and the third.
#[test]
fn both_edges_of_each_m() {
    let last = [795, 1575, 2355, 3135, 3915, 4695, 5475, 6255, 6273, 6291];
    for (count, last) in (1..).zip(last) {
        let refs = &BUNCH[..count];
        let with = |clock| [refs, &[clock]].concat();
        for allowed in [refs, &with(last)] {
            let words = refreshes(allowed, last);
            assert_eq!(verdict(&words), ACCEPTED, "{count} REF words");
        }
        for late in [refs, &with(last + 1)] {
            let words = refreshes(late, last + 1);
            assert_eq!(verdict(&words), breach(last + 1, 3), "{count} REF words");
        }
    }
}

/// Rule 3 is for one m alone: with eight REF words before, neither a last one D and more before is a
/// breach, nor does a last one right before help where the eighth last is too far.
#[test]
fn no_other_m_counts() {
    let ninth = [&BUNCH[..8], &[6255]].concat();
    assert_eq!(verdict(&refreshes(&ninth, 6273)), ACCEPTED);
    assert_eq!(verdict(&refreshes(&ninth, 6274)), breach(6274, 3));
    let tenth = [&ninth[..], &[6273]].concat();
    assert_eq!(verdict(&refreshes(&tenth, 6291)), ACCEPTED);
    assert_eq!(verdict(&refreshes(&tenth, 6292)), breach(6292, 3));
}

#[test]
fn case_f_read_then_mode() {
    let two = |clock| after_start_up(&[(201, &READ), (clock, &REGULAR)]);
    assert_eq!(two(208), ACCEPTED);
    assert_eq!(two(207), breach(208, 11));
}

#[test]
fn case_g_lanes_of_a_write() {
    let operation = Operation::Access(Request::from_numbers([1, 0, 0, 0, 4, 4]));
    assert_eq!(pair::write(&SHEET_E, &operation), Ok((0x80000, 0xD1000)));
    // WL is 3, and BL / 2 is 2.
    let (latency, length) = (3, 2);
    let data = DataClocks { latency, length };
    let reading = Reading { operation, data };
    assert_eq!(pair::read(&SHEET_E, 0x80000, 0xD1000), Ok(reading));
}

#[test]
fn case_h_least_period() {
    let at = |period| Sheet { period, ..SHEET_E };
    assert_eq!(at(4500).refusal(), None);
    assert_eq!(at(4499).refusal(), Some(21));
    assert_eq!(check::<History>(&at(4499), &[0]), Err(21));
}

#[test]
fn an_older_pair_of_the_bank_binds() {
    let late = |clock| after_start_up(&[(201, &READ), (203, &READ_OF_1), (clock, &READ)]);
    assert_eq!(late(206), ACCEPTED);
    assert_eq!(late(205), breach(206, 7));
}

#[test]
fn nine_refreshes_take_w() {
    assert_eq!(after_start_up(&UP_TO_NINE), ACCEPTED);
    let early = [&UP_TO_NINE[..6], &[(654, &REFRESH)]].concat();
    assert_eq!(after_start_up(&early), breach(655, 12));
}

#[test]
fn a_long_trace_refuses() {
    let words = vec![DESL; 16_777_217];
    assert_eq!(check::<Summary>(&SHEET_E, &words), Err(24));
    assert_eq!(check::<Summary>(&SHEET_E, &words[1..]), Ok(ACCEPTED));
    assert_eq!(counts(&SHEET_E, &words[..65_537]), Err(30));
    let counted = counts(&SHEET_E, &words[..65_536]).unwrap();
    assert_eq!(counted.numbers(), [0, 0, 0, 0, 65_536, 0]);
}

#[test]
fn a_script_as_the_replay_program_answers_it() {
    let script = [
        2, 1, DESL, 2, 1, 0, 2, 1, DESL, 2, 0, DESL, 4, 0, 0, 0, 0, 0, 0, 5, 2, 9, 3, 1, 0, 99,
    ];
    let lines = [
        "pass 1",
        "breach 1 2",
        "refused 23",
        "pass 1",
        "offered",
        "word 0 655360",
        "word 1 540672",
        "clock 2",
        "waiting 1",
        "request 0 0 0 0 0 0",
        "breach 0 2",
        "script refused",
    ];
    assert_eq!(expected(&script).lines().collect::<Vec<_>>(), lines);
}

/// A walk says end where its words have run out, at the last clock too; with a word left it refuses
/// 24 there.
#[test]
fn walks_end_with_their_words() {
    let words = vec![DESL; LONGEST as usize + 1];
    for (length, stop) in [(LONGEST, None), (LONGEST + 1, Some(Step::Refused(24)))] {
        let mut walk = Walk::<Summary>::fresh(SHEET_E, &words[..length as usize]);
        for _ in 0..LONGEST {
            assert_eq!(walk.advance(), Some(Step::Pass));
        }
        assert_eq!([walk.advance(), walk.advance()], [stop, stop]);
    }
}
