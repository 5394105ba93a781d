//! Text to words and back.

mod common;

use common::{assembled, bytes, last_line, listing};
use trace::Format;

/// Lines of every command with what stands in their comments, and their words; sheet E's format.
const LISTED: &str = "\
# 46 words
RDA bank 0 row 0                        # 0
MRS extended 0                          # 1
DESL x 5                                # 2 to 6
RDA bank 0 row 0                        # 7
MRS regular cl 4 bl 4 a3 0              # 8
WRA bank 0 row 0                        # 9
REF                                     # 10
RDA bank 7 row 16383                    # 11
LAL column 255                          # 12
WRA bank 1 row 2                        # 13
LAL column 3 lower 4 upper 1            # 14
WRA bank 1 row 2                        # 15
LAL column 0 lower 2 upper reserved     # 16
RDA bank 0 row 0                        # 17
MRS extended 63                         # 18
RDA bank 0 row 0                        # 19
MRS regular cl 7 bl 2 a3 1              # 20
DESL                                    # 21
WORD 0xC0001                            # 22, DESL
WRA bank 0 row 0                        # 23
WORD 0xC0100                            # 24, LAL
RDA bank 0 row 0                        # 25
WORD 0xD1000                            # 26, LAL
WRA bank 0 row 0                        # 27
REF                                     # 28
WRA bank 0 row 0                        # 29
REF                                     # 30
DESL                                    # 31
WORD 0xA0000 x 5                        # 32 to 36, RDA and MRS in turn
WORD 0x0                                # 37, MRS, PD low
WORD 0x180000                           # 38, WRA
LAL column 0 lower reserved upper reserved # 39
DESL                                    # 40
PD x 3                                  # 41 to 43
WORD 0x20001                            # 44, PD
WRA bank 0 row 66                       # 45
# lasts 230 ns and 0 ps, at 5000 ps a clock
";

const WORDS: [u32; 46] = [
    0xA0000, 0x84000, 0xC0000, 0xC0000, 0xC0000, 0xC0000, 0xC0000, 0xA0000, 0x80042, 0x80000,
    0x80000, 0xBFFFF, 0xC00FF, 0x84002, 0xD1803, 0x84002, 0xC2000, 0xA0000, 0x8407E, 0xA0000,
    0x80079, 0xC0000, 0xC0001, 0x80000, 0xC0100, 0xA0000, 0xD1000, 0x80000, 0x80000, 0x80000,
    0x80000, 0xC0000, 0xA0000, 0xA0000, 0xA0000, 0xA0000, 0xA0000, 0, 0x180000, 0xC0000, 0xC0000,
    0x40000, 0x40000, 0x40000, 0x20001, 0x80042,
];

/// The same words, written as one would by hand.
const BY_HAND: &str = "
# the fields that are left out are 0
rda
mrs extended 0
at 7    # five DESL
RDA row 0\tbank 0\r
MRS Regular bl 4 cl 4
WRA
REF
RDA row 0x3fff bank 7
LAL column 0xFF x 1
WRA bank 1 row 2
LAL upper 1 lower 4 column 3
WRA bank 1 row 2
LAL lower 2
RDA
MRS extended 0x3F
RDA
MRS regular a3 1 cl 7 bl 2
at 22 # one DESL
WORD 786433
WRA
WORD 0xc0100
RDA
LAL lower 4 upper 4
REF x 2
WRA x 1
WRA
DESL
RDA x 5
WORD 0
WORD 0x180000
DESL
at 41
pd X 2
PD
WORD 0x20001
MRS regular cl 4 bl 4";

#[test]
fn a_listing_and_its_words() {
    assert_eq!(listing(&bytes(&WORDS), Format::default()), LISTED);
    assert_eq!(assembled(LISTED), bytes(&WORDS));
}

#[test]
fn by_hand() {
    assert_eq!(assembled(BY_HAND), bytes(&WORDS));
    assert_eq!(assembled("\u{FEFF}DESL"), bytes(&[0xC0000]));
}

#[test]
fn fields_in_any_order() {
    let lines = [
        ("RDA row 5 x 2 bank 1", "RDA bank 1 row 5 x 2"),
        (
            "LAL upper 1 column 3 lower 4",
            "LAL column 3 lower 4 upper 1",
        ),
        ("MRS bl 4 regular cl 4", "MRS regular cl 4 bl 4"),
        ("MRS a3 1 cl 5 bl 2 Regular", "MRS regular cl 5 bl 2 a3 1"),
        ("MRS x 2 cl 4 regular bl 4", "MRS regular cl 4 bl 4 x 2"),
        ("MRS x 2 extended 9", "MRS extended 9 x 2"),
    ];
    for (line, in_order) in lines {
        assert_eq!(assembled(line), assembled(in_order), "{line}");
    }
}

/// A format with eight banks.
fn format(bl: u32, organisation: u32) -> Format {
    Format {
        bl,
        organisation,
        ..Format::default()
    }
}

#[test]
fn other_formats() {
    let texts = [
        (2, 16, "bl 2\n", "LAL column 9 lower 2 upper 1 ", 0xC1009),
        (4, 8, "organisation 8\n", "LAL column 511 lower 1 ", 0xD21FF),
        (
            2,
            8,
            "bl 2\norganisation 8\n",
            "LAL column 0 lower 1 ",
            0xD0000,
        ),
    ];
    for (bl, organisation, heading, lal, word) in texts {
        let text = format!(
            "# 2 words\n{heading}{:<40}# 0\n{lal:<40}# 1\n{}",
            "WRA bank 5 row 6",
            last_line(2)
        );
        let words = bytes(&[0x94006, word]);
        assert_eq!(listing(&words, format(bl, organisation)), text);
        assert_eq!(assembled(&text), words);
    }
}

/// Pins that the format does not use make a bare word of a write's LAL.
#[test]
fn ignored_pins() {
    for (bl, organisation, word) in [(2, 16, 0xC2000), (2, 16, 0xC0800), (4, 8, 0xD1000)] {
        let text = listing(&bytes(&[0x80000, word]), format(bl, organisation));
        let last = format!("{:<40}# 1, LAL", format!("WORD {word:#X}"));
        assert_eq!(text.lines().nth_back(1), Some(last.as_str()));
    }
}

#[test]
fn no_words_and_a_rest() {
    let time = last_line(0);
    assert_eq!(
        listing(&[], Format::default()),
        format!("# 0 words\n{time}")
    );
    let rest = format!("# 0 words\nBYTE 0x0\nBYTE 0xFF\nBYTE 0x1\n{time}");
    assert_eq!(listing(&[0, 255, 1], Format::default()), rest);
    for text in ["", "\n", "# 0 words", "bl 2\norganisation 8\n", "at 0"] {
        assert_eq!(assembled(text), []);
    }
    assert_eq!(assembled(&rest), [0, 255, 1]);
}
