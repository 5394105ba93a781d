//! The clocks of data behind each LAL of a listing, where they are asked for.

mod common;

use common::{assembled, bytes, formats, good, last_line, listing, listing_data, run, said};
use reference::random::Random;
use trace::{Format, LONGEST};

const SEED: u64 = 0x7ACE_0004;
const DESL: u32 = 0xC0000;
const RDA: u32 = 0xA0000;
const WRA: u32 = 0x80000;

/// CL, BL, and the data of a read and of a write whose LAL stands at clock 1.
const CLOCKS: [(u32, u32, &str, &str); 6] = [
    (3, 4, "4 to 5", "3 to 4"),
    (4, 4, "5 to 6", "4 to 5"),
    (5, 4, "6 to 7", "5 to 6"),
    (3, 2, "4", "3"),
    (4, 2, "5", "4"),
    (5, 2, "6", "5"),
];

/// Every CL and BL; neither organisation nor wiring nor lanes nor ignored pins change anything.
#[test]
fn by_cl_and_bl() {
    for (cl, bl, read, write) in CLOCKS {
        for format in formats().into_iter().filter(|format| format.bl == bl) {
            for (first, data) in [(RDA, read), (WRA, write)] {
                for second in [DESL, 0xC0003, 0xD1003, 0xF3803, 0x40003, 0xFFF7_FFFF] {
                    let words = bytes(&[first, second]);
                    let mut wanted = listing(&words, format);
                    let time = wanted.split_off(wanted.len() - last_line(2).len() - 1);
                    wanted += &format!(", data {data}{time}");
                    assert_eq!(listing_data(&words, format, cl), wanted);
                }
            }
        }
    }
}

/// Words in every place, at CL 4 and BL 4. Nothing is judged: data overlap, and words that close a pair have PD low.
const LISTED: &str = "\
# 50 words
RDA bank 0 row 0                        # 0
MRS regular cl 5 bl 2 a3 0              # 1
WRA bank 0 row 0                        # 2
REF                                     # 3
RDA bank 2 row 7                        # 4
LAL column 3                            # 5, data 9 to 10
DESL x 2                                # 6 to 7
WRA bank 1 row 2                        # 8
LAL column 3 lower 1 upper 1            # 9, data 12 to 13
WRA bank 1 row 2                        # 10
LAL column 0 lower 4 upper reserved     # 11, data 14 to 15
RDA bank 0 row 0                        # 12
LAL column 0                            # 13, data 17 to 18
DESL x 4                                # 14 to 17
RDA bank 0 row 0                        # 18
WORD 0xD1000                            # 19, LAL, data 23 to 24
WRA bank 0 row 0                        # 20
WORD 0xC0100                            # 21, LAL, data 24 to 25
RDA bank 0 row 0                        # 22
WORD 0x40003                            # 23, LAL, PD low, data 27 to 28
WRA bank 0 row 0                        # 24
WORD 0x40000                            # 25, LAL, PD low, data 28 to 29
PD x 3                                  # 26 to 28
WORD 0xC0001                            # 29, DESL
RDA bank 0 row 0                        # 30
WORD 0x4000                             # 31, MRS, PD low
WRA bank 0 row 0                        # 32
WORD 0x0                                # 33, REF, PD low
DESL                                    # 34
WORD 0xA0000 x 5                        # 35 to 39, RDA and MRS in turn
LAL column 0                            # 40, data 44 to 45
WORD 0x80000 x 6                        # 41 to 46, WRA and REF in turn
DESL x 2                                # 47 to 48
RDA bank 0 row 0                        # 49
# lasts 250 ns and 0 ps, at 5000 ps a clock
";

/// A listing without its data.
fn without(text: &str) -> String {
    let lines = text.lines().map(|line| line.split(", data ").next());
    lines.flatten().flat_map(|line| [line, "\n"]).collect()
}

#[test]
fn a_listing_and_its_words() {
    let trace = assembled(LISTED);
    assert_eq!(listing_data(&trace, Format::default(), 4), LISTED);
    assert_eq!(listing(&trace, Format::default()), without(LISTED));
}

/// The clock of each LAL and what is said of its data, word by word.
fn data(words: &[u32], cl: usize, bl: usize) -> Vec<(String, String)> {
    let mut found = Vec::new();
    // Whether the open pair is a read, or would be.
    let mut open = None;
    for (clock, word) in words.iter().enumerate() {
        let [fn_high, cs_high, pd_high] = [17, 18, 19].map(|place| word >> place & 1 == 1);
        match open.take() {
            None if pd_high && !cs_high => open = Some(fn_high),
            Some(read) if cs_high => {
                let first = clock + if read { cl } else { cl - 1 };
                let last = first + bl / 2 - 1;
                let said = [format!("{first}"), format!("{first} to {last}")];
                found.push((clock.to_string(), said[usize::from(bl == 4)].clone()));
            }
            _ => {}
        }
    }
    found
}

/// The same by the lines of a listing.
fn listed(text: &str) -> Vec<(String, String)> {
    let of = |line: &str| {
        let (note, data) = line.split_once(", data ")?;
        let (_, note) = note.split_once(" # ").expect("the clocks are there");
        let clock = note.split(',').next().expect("a clock comes first");
        Some((clock.to_string(), data.to_string()))
    };
    text.lines().filter_map(of).collect()
}

/// Runs of words, many of which open and close pairs.
fn words(random: &Random) -> Vec<u32> {
    let mut words = Vec::new();
    for _ in 0..random.between(1, 60) {
        let word = match random.below(4) {
            0 => random.bits(),
            1 => WRA | random.below(1 << 19),
            _ => random.pick(&[DESL, RDA, WRA, 0xC0003, 0xD1003, 0x40003, 0]),
        };
        let longest = random.pick(&[1, 1, 2, 9]);
        words.extend(vec![word; random.between(1, longest) as usize]);
    }
    words
}

/// Each LAL has its data and no other word has any; all else is as in a listing without, and the words come back.
#[test]
fn random_pairs() {
    let random = Random::new(SEED);
    for _ in 0..1_000 {
        let words = words(&random);
        for format in formats() {
            let plain = listing(&bytes(&words), format);
            assert!(!plain.contains("data"));
            for cl in [3, 4, 5] {
                let text = listing_data(&bytes(&words), format, cl);
                assert_eq!(without(&text), plain);
                assert_eq!(listed(&text), data(&words, cl as usize, format.bl as usize));
                let back = good(&text);
                assert!(back.warnings.is_empty() && back.trace.bytes() == bytes(&words));
            }
        }
    }
}

/// The last LAL of the longest trace.
#[test]
fn the_last_clock() {
    let mut words = vec![DESL; LONGEST as usize];
    words[LONGEST as usize - 2] = RDA;
    let text = listing_data(&bytes(&words), Format::default(), 5);
    let lal = format!(
        "{:<40}# 67108863, data 67108868 to 67108869",
        "LAL column 0"
    );
    assert_eq!(text.lines().nth_back(1), Some(lal.as_str()));
}

/// Data are shown with either option, and with none of them the listing is as it was.
#[test]
fn the_options() {
    let words = bytes(&[RDA, 0xC0003, WRA, 0xD1003]);
    let bl_2 = Format {
        bl: 2,
        ..Format::default()
    };
    let e = Format::default();
    let calls: [(&[&str], String); 8] = [
        (&[], listing(&words, e)),
        (&["--bl", "2"], listing(&words, bl_2)),
        (&["--data"], listing_data(&words, e, 4)),
        (&["--cl", "4"], listing_data(&words, e, 4)),
        (&["--cl", "3"], listing_data(&words, e, 3)),
        (&["--data", "--cl", "5"], listing_data(&words, e, 5)),
        (&["--cl", "5", "-", "--data"], listing_data(&words, e, 5)),
        (&["--data", "--bl", "2"], listing_data(&words, bl_2, 4)),
    ];
    for (options, text) in calls {
        let run = run(&[&["list"], options].concat(), &words);
        assert_eq!(said(&run), (Some(0), String::new()), "{options:?}");
        assert_eq!(String::from_utf8(run.stdout).unwrap(), text);
    }
}
