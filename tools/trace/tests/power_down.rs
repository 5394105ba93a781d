//! Words with PD low: their line, what they are in a listing, and where pairs begin around them.

mod common;

use common::{assembled, bytes, formats, good, good_as, last_line, listing, wired};
use reference::random::Random;
use trace::LONGEST;

const SEED: u64 = 0x7ACE_0003;
const PD: u32 = 1 << 19;
const LOW: u32 = 0x40000;
const DESL: u32 = 0xC0000;

#[test]
fn lines_and_their_words() {
    for (text, count) in [
        ("PD", 1),
        ("pd", 1),
        ("  Pd\t# asleep", 1),
        ("PD x 1", 1),
        ("PD x 20", 20),
        ("PD X 0x14 # as long", 20),
        ("PD x 19\r\nPD\r\n", 20),
    ] {
        assert_eq!(assembled(text), bytes(&vec![LOW; count]), "{text}");
    }
}

#[test]
fn the_longest_sleep() {
    good(&format!("PD x {LONGEST}\nat {LONGEST}"));
    let ends = good(&format!("PD x {}\nPD", LONGEST - 1)).trace;
    assert_eq!(ends, good(&format!("PD x {LONGEST}")).trace);
}

/// Lines and comments of low words in every place. The first word is low, and so are others before and after pairs.
const LISTED: &str = "\
PD                                      # 0
DESL x 2                                # 1 to 2
PD x 20                                 # 3 to 22
WORD 0x0                                # 23, PD
WORD 0x20007 x 6                        # 24 to 29, PD
WORD 0xFFF40000                         # 30, PD
WRA bank 0 row 0                        # 31
WORD 0x40000                            # 32, LAL, PD low
PD x 2                                  # 33 to 34
RDA bank 0 row 0                        # 35
WORD 0x40003                            # 36, LAL, PD low
WRA bank 0 row 0                        # 37
WORD 0x0                                # 38, REF, PD low
WORD 0x0 x 5                            # 39 to 43, PD
RDA bank 0 row 0                        # 44
WORD 0x4000                             # 45, MRS, PD low
RDA bank 0 row 0                        # 46
MRS extended 0                          # 47
PD                                      # 48
";

/// The same words, written as one would by hand.
const BY_HAND: &str = "
PD
at 3        # the wake-up words
PD x 20
WORD 0
WORD 0x20007 x 6
WORD 0xFFF40000
WRA
PD x 3      # the first closes the pair
RDA
WORD 0x40003
WRA
WORD 0 x 6  # so does the first of these
RDA
WORD 0x4000
RDA
MRS extended 0
PD";

#[test]
fn a_listing_and_its_words() {
    let trace = assembled(BY_HAND);
    for (wiring, heading) in [(8, ""), (4, "wiring 4\n")] {
        let text = format!("# 49 words\n{heading}{LISTED}{}", last_line(49));
        assert_eq!(listing(&trace, wired(wiring)), text);
        assert_eq!(assembled(&text), trace);
        assert_eq!(good_as(BY_HAND, Some(wiring)).trace.bytes(), trace);
    }
}

/// Every low word with no bit above PD; the line `PD` is for the one that it gives.
#[test]
fn every_low_word() {
    let words: Vec<u32> = (0..PD).collect();
    for wiring in [8, 4] {
        let text = listing(&bytes(&words), wired(wiring));
        assert_eq!(assembled(&text), bytes(&words));
        let lines: Vec<&str> = text.lines().rev().skip(1).take(words.len()).collect();
        for (word, line) in words.iter().rev().zip(lines) {
            let wanted = match *word {
                LOW => format!("{:<40}# {word}", "PD"),
                _ => format!("{:<40}# {word}, PD", format!("WORD {word:#X}")),
            };
            assert_eq!(line, wanted);
        }
    }
}

/// What each word is and what is said of it, word by word.
fn names(words: &[u32]) -> Vec<String> {
    // FN of the first word of the open pair.
    let mut open = None;
    let name = |&word: &u32| {
        let [fn_high, cs_high, pd_high] = [17, 18, 19].map(|place| word >> place & 1 == 1);
        let name = match (open.take(), pd_high, cs_high) {
            (None, false, _) => return "PD".to_string(),
            (None, true, true) => "DESL",
            (None, true, false) => {
                open = Some(fn_high);
                ["WRA", "RDA"][usize::from(fn_high)]
            }
            (Some(_), _, true) => "LAL",
            (Some(true), _, false) => "MRS",
            (Some(false), _, false) => "REF",
        };
        name.to_string() + if pd_high { "" } else { ", PD low" }
    };
    words.iter().map(name).collect()
}

/// What a line of a listing calls its words, each by itself.
fn named(line: &str) -> Vec<String> {
    let (command, note) = line.split_once(" # ").expect("the clocks are there");
    let mut tokens = command.split_whitespace();
    let name = match tokens.next() {
        Some("WORD") => note.split_once(", ").expect("its command is there").1,
        name => name.expect("the line has a command"),
    };
    let count = tokens.skip_while(|&token| token != "x").nth(1);
    let count = count.map_or(1, |count| count.parse().expect("a count"));
    let in_turn = name.strip_suffix(" in turn");
    let names = in_turn.map_or(vec![name], |names| names.split(" and ").collect());
    let names = names.into_iter().map(str::to_string);
    names.cycle().take(count).collect()
}

/// A word of a trace that sleeps much: low ones, with other pins or not, and words that open and close pairs.
fn word(random: &Random) -> u32 {
    match random.below(8) {
        0 | 1 => LOW,
        2 => random.below(PD),
        3 => random.bits() & !PD,
        4 => DESL,
        5 => random.pick(&[0x80000, 0xA0000, 0x84000, 0x80042]),
        6 => PD | random.below(PD),
        _ => LOW ^ (1 << random.below(20)),
    }
}

/// Runs of such words, most of them short.
fn sleeping(random: &Random) -> Vec<u32> {
    let mut words = Vec::new();
    for _ in 0..random.between(1, 40) {
        let longest = random.pick(&[1, 1, 2, 3, 20]);
        let length = random.between(1, longest) as usize;
        words.extend(vec![word(random); length]);
    }
    words
}

/// Listings of such traces name every word for what it is, and give the words back.
#[test]
fn random_sleep() {
    let random = Random::new(SEED);
    for _ in 0..3_000 {
        let words = sleeping(&random);
        for format in formats() {
            let text = listing(&bytes(&words), format);
            assert_eq!(assembled(&text), bytes(&words), "{text}");
            let lines = text.lines().filter(|line| line.contains(" # "));
            assert_eq!(lines.flat_map(named).collect::<Vec<_>>(), names(&words));
        }
    }
}
