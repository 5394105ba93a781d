//! A line whose word is another command in its place than the line says is worth a warning, once; its word is the same without.

mod common;

use common::{assembled, bytes, warnings};

/// Texts, and what is said of the one line that is named.
const TEXTS: &[(&str, &str)] = &[
    (
        "RDA\nRDA",
        "t:2: warning: RDA closes the pair of line 1, as an MRS",
    ),
    (
        "WRA\n\nRDA",
        "t:3: warning: RDA closes the pair of line 1, as a REF",
    ),
    (
        "RDA\nWRA bank 2",
        "t:2: warning: WRA closes the pair of line 1, as an MRS",
    ),
    (
        "DESL\nWRA\nWRA",
        "t:3: warning: WRA closes the pair of line 2, as a REF",
    ),
    (
        "WRA\nMRS extended 0",
        "t:2: warning: MRS closes the pair of line 1, as a REF",
    ),
    (
        "WRA\nmrs regular cl 4 bl 4",
        "t:2: warning: MRS closes the pair of line 1, as a REF",
    ),
    (
        "RDA\nREF",
        "t:2: warning: REF closes the pair of line 1, as an MRS",
    ),
    (
        "RDA\nDESL",
        "t:2: warning: DESL closes the pair of line 1, as a LAL",
    ),
    (
        "WRA\ndesl x 5",
        "t:2: warning: DESL closes the pair of line 1, as a LAL",
    ),
    (
        "RDA\nat 7",
        "t:2: warning: at closes the pair of line 1, as a LAL",
    ),
    (
        "RDA\nPD",
        "t:2: warning: PD closes the pair of line 1, as a LAL",
    ),
    (
        "WRA x 2",
        "t:1: warning: WRA closes the pair of line 1, as a REF",
    ),
    (
        "WORD 0xA0000\nDESL",
        "t:2: warning: DESL closes the pair of line 1, as a LAL",
    ),
    (
        "LAL column 3",
        "t:1: warning: LAL is a DESL: no pair is open",
    ),
    (
        "RDA\nLAL x 2",
        "t:2: warning: LAL is a DESL: no pair is open",
    ),
    (
        "RDA\nLAL\nLAL",
        "t:3: warning: LAL is a DESL: no pair is open",
    ),
    (
        "MRS extended 0",
        "t:1: warning: MRS opens a pair, as a WRA: none is open",
    ),
    (
        "REF",
        "t:1: warning: REF opens a pair, as a WRA: none is open",
    ),
    (
        "REF x 2",
        "t:1: warning: REF opens a pair, as a WRA: none is open",
    ),
    (
        "WRA\nREF x 2",
        "t:2: warning: REF opens a pair, as a WRA: none is open",
    ),
    (
        "RDA\nMRS extended 0 x 3",
        "t:2: warning: MRS opens a pair, as a WRA: none is open",
    ),
];

#[test]
fn another_command() {
    for (text, wanted) in TEXTS {
        assert_eq!(warnings(text), [*wanted], "{text}");
    }
}

/// A pair that lacks its second word, and all that is out of step behind it.
#[test]
fn out_of_step() {
    let text = "RDA\nMRS extended 0\nat 7\nRDA\nat 14\nWRA\nWRA\nREF\nREF\nRDA\nLAL";
    let wanted = [
        "t:5: warning: at closes the pair of line 4, as a LAL",
        "t:7: warning: WRA closes the pair of line 6, as a REF",
        "t:8: warning: REF opens a pair, as a WRA: none is open",
    ];
    assert_eq!(warnings(text), wanted);
}

#[test]
fn the_command_that_is_said() {
    for text in [
        "",
        "DESL x 3\nat 9\nPD x 4\nDESL x 2",
        "RDA\nMRS regular cl 4 bl 4\nat 7\nWRA\nREF\nat 30\nRDA\nLAL\nRDA",
        "WORD 0 x 3\nWORD 0xA0000 x 5\nWORD 0xC0000",
        "RDA\nWORD 0xC0000\nDESL",
        "RDA\nat 1\nLAL",
        "RDA\nBYTE 1",
    ] {
        assert_eq!(warnings(text), [""; 0], "{text}");
    }
}

#[test]
fn the_words_are_the_same() {
    let words = bytes(&[0xA0000, 0xA0000, 0x80000, 0xC0000]);
    assert_eq!(assembled("RDA\nRDA\nREF\nDESL"), words);
}
