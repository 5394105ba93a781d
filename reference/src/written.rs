//! Traces as they are written by hand: words at their clocks, DESL between them.

use crate::word::DESL;

/// PD low and CS high.
pub const LOW: u32 = 0x40000;
/// First words with every address and bank pin low: of a read or a mode, and of a write or a refresh.
pub const RDA: u32 = 0xA0000;
pub const WRA: u32 = 0x80000;
/// Reads and writes of row 0 and column 0, by the bank with eight banks; a write has four words in each
/// lane.
pub const READ: [u32; 2] = [RDA, 0xC0000];
pub const READ_OF_1: [u32; 2] = [0xA4000, 0xC0000];
pub const READ_OF_4: [u32; 2] = [0xB0000, 0xC0000];
pub const WRITE: [u32; 2] = [WRA, 0xD1000];
pub const WRITE_OF_1: [u32; 2] = [0x84000, 0xD1000];
/// Both modes, the regular one for CL 4 and BL 4, and a refresh.
pub const EXTENDED: [u32; 2] = [RDA, 0x84000];
pub const REGULAR: [u32; 2] = [RDA, 0x80042];
pub const REFRESH: [u32; 2] = [WRA, 0x80000];

/// Words from a clock on.
pub type At<'a> = (usize, &'a [u32]);

/// The start-up of the paper, with REF words at 15 and 33.
pub const START_UP: [At; 4] = [
    (0, &EXTENDED),
    (7, &REGULAR),
    (14, &REFRESH),
    (32, &REFRESH),
];

/// One with more clocks between its pairs than any RSC asks for, and any REFC up to 40.
pub const SLOW_START_UP: [At; 4] = [
    (0, &EXTENDED),
    (20, &REGULAR),
    (40, &REFRESH),
    (80, &REFRESH),
];

/// Behind that of the paper the refreshes up to the ninth, as soon as REFC 18 and 5000 ps allow: with REF words at 51,
/// 69, 87, 105, 123, 141 and 656.
pub const UP_TO_NINE: [At; 7] = [
    (50, &REFRESH),
    (68, &REFRESH),
    (86, &REFRESH),
    (104, &REFRESH),
    (122, &REFRESH),
    (140, &REFRESH),
    (655, &REFRESH),
];

/// Words at their clocks, in order, and DESL between them.
pub fn trace(words: &[At]) -> Vec<u32> {
    let mut trace = Vec::new();
    for (clock, words) in words {
        assert!(trace.len() <= *clock, "two words at a clock before {clock}");
        trace.resize(*clock, DESL);
        trace.extend(*words);
    }
    trace
}

/// The words of a trace whose pairs stand behind the start-up.
pub fn started(words: &[At]) -> Vec<u32> {
    trace(&[&START_UP, words].concat())
}

/// The words of a trace whose pairs stand behind the slow start-up.
pub fn started_slowly(words: &[At]) -> Vec<u32> {
    trace(&[&SLOW_START_UP, words].concat())
}
