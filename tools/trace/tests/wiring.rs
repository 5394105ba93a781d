//! The two wirings: where banks and rows lie on the pins, how far they run, and how a text says which is meant.

mod common;

use common::{assembled, bytes, faults, faults_as, good, good_as, last_line, listing, wired};
use trace::assemble;

/// The words of a good text, with a wiring asked for.
fn words(text: &str, wiring: u32) -> Vec<u8> {
    good_as(text, Some(wiring)).trace.bytes()
}

#[test]
fn the_ends_of_the_ranges() {
    for (wiring, line, word) in [
        (8, "RDA bank 3 row 16383", 0xAFFFF),
        (8, "RDA bank 4", 0xB0000),
        (8, "RDA bank 7 row 16383", 0xBFFFF),
        (8, "WRA bank 7", 0x9C000),
        (4, "RDA bank 3 row 16383", 0xAFFFF),
        (4, "RDA row 16384", 0xB0000),
        (4, "RDA bank 3 row 32767", 0xBFFFF),
        (4, "WRA bank 3 row 0x4000", 0x9C000),
    ] {
        assert_eq!(words(line, wiring), bytes(&[word]), "{line}");
    }
}

#[test]
fn past_the_ranges() {
    for (wiring, line, what) in [
        (8, "RDA bank 8", "bank 8 is above 7"),
        (
            8,
            "WRA row 16384",
            "row 16384 is above 16383; wiring 4 has that row",
        ),
        (
            8,
            "RDA bank 3 row 0x7FFF",
            "row 0x7FFF is above 16383; wiring 4 has that row",
        ),
        // The other wiring has no such bank, or no such row.
        (8, "RDA bank 4 row 0x7FFF", "row 0x7FFF is above 16383"),
        (4, "RDA row 16384 bank 4", "bank 4 is above 3"),
        (8, "RDA row 32768", "row 32768 is above 16383"),
        (4, "RDA bank 4", "bank 4 is above 3; wiring 8 has that bank"),
        (
            4,
            "WRA row 16383 BANK 7",
            "bank 7 is above 3; wiring 8 has that bank",
        ),
        (4, "RDA bank 8", "bank 8 is above 3"),
        (4, "RDA row 32768", "row 32768 is above 32767"),
        (4, "RDA row x", "row x is no number"),
    ] {
        let text = format!("DESL x 2\n\n{line} # no place\nNOP");
        let wanted = [format!("t:3: {what}"), "t:4: NOP is no command".to_string()];
        assert_eq!(faults_as(text.as_bytes(), Some(wiring)), wanted);
        let said = format!("wiring {wiring}\n{line}");
        assert_eq!(faults(said.as_bytes()), [format!("t:2: {what}")]);
    }
}

/// The bank and the row on address pins, as the paper has them.
fn bank_and_row(pins: u32, wiring: u32) -> (u32, u32) {
    let (ba, a) = (pins / 16_384, pins % 16_384);
    match wiring {
        8 => (ba, a),
        _ => (ba % 4, a + 16_384 * (ba / 4)),
    }
}

/// First words over all address pins, each with a word after it that closes the pair.
#[test]
fn every_address() {
    for (wiring, name, first) in [
        (8, "RDA", 0xA0000),
        (8, "WRA", 0x80000),
        (4, "RDA", 0xA0000),
        (4, "WRA", 0x80000),
    ] {
        let trace: Vec<u32> = (0..1 << 17)
            .flat_map(|pins| [first | pins, 0xC0000])
            .collect();
        let text = listing(&bytes(&trace), wired(wiring));
        assert_eq!(words(&text, wiring), bytes(&trace));
        let lines: Vec<&str> = text.lines().filter(|line| line.starts_with(name)).collect();
        assert_eq!(lines.len(), 1 << 17);
        for (pins, line) in (0..).zip(lines) {
            let (bank, row) = bank_and_row(pins, wiring);
            let wanted = format!("{name} bank {bank} row {row} ");
            assert!(line.starts_with(&wanted), "{line}");
        }
    }
}

/// Second words are listed alike with either wiring: a write's lower lane and what MRS wants low stay on their pins.
#[test]
fn second_words() {
    for first in [0xA0000, 0x80000] {
        let pins = (0..1 << 20).step_by(7);
        let trace: Vec<u32> = pins.flat_map(|word| [first, word]).collect();
        let eight = listing(&bytes(&trace), wired(8));
        let four = listing(&bytes(&trace), wired(4));
        assert_eq!(four.replacen("\nwiring 4\n", "\n", 1), eight);
        assert_eq!(words(&eight, 4), bytes(&trace));
    }
    for (line, word) in [
        ("LAL column 0 lower 4 upper 4", 0xD1000),
        ("MRS extended 0", 0x84000),
        ("MRS regular cl 4 bl 4", 0x80042),
    ] {
        assert_eq!(words(line, 4), bytes(&[word]));
    }
}

/// A listing says a wiring of four, so that it is assembled alike with the wiring asked for and with none.
#[test]
fn a_line_of_the_text() {
    let trace = bytes(&[0x9_8E20, 0xD1003]);
    let lal = format!("{:<40}# 1\n", "LAL column 3 lower 4 upper 4");
    let first = |line: &str| format!("{line:<40}# 0\n");
    let eight = first("WRA bank 6 row 3616");
    let four = first("WRA bank 2 row 20000");
    let eight = format!("# 2 words\n{eight}{lal}{}", last_line(2));
    let four = format!("# 2 words\nwiring 4\n{four}{lal}{}", last_line(2));
    assert_eq!(listing(&trace, wired(8)), eight);
    assert_eq!(listing(&trace, wired(4)), four);
    for (text, wiring) in [(&eight, 8), (&four, 4)] {
        assert_eq!(assembled(text), trace);
        assert_eq!(words(text, wiring), trace);
    }
    assert_eq!(assembled(&format!("Wiring 8\n{eight}")), trace);
}

#[test]
fn another_wiring_than_is_asked_for() {
    for (asked, said) in [(8, 4), (4, 8)] {
        let text = format!("# of a board\nwiring {said}\nDESL");
        let wanted = format!("t:2: wiring {said} contradicts --wiring {asked}");
        assert_eq!(faults_as(text.as_bytes(), Some(asked)), [wanted]);
        assert_eq!(words(&text, said), bytes(&[0xC0000]));
    }
}

/// A line gives one word with both wirings, or is wrong with one: none is silently taken for another.
#[test]
fn no_line_gives_two_words() {
    let word = |line: &str, wiring| {
        let given = assemble(line.as_bytes(), Some(wiring));
        given.ok().map(|given| given.trace.bytes())
    };
    for bank in 0..9 {
        for row in [0, 9_999, 16_383, 16_384, 32_767, 32_768] {
            let line = format!("WRA bank {bank} row {row}");
            let (eight, four) = (word(&line, 8), word(&line, 4));
            assert_eq!(eight.is_some(), bank < 8 && row < 16_384, "{line}");
            assert_eq!(four.is_some(), bank < 4 && row < 32_768, "{line}");
            assert!(eight == four || eight.is_none() || four.is_none());
        }
    }
}

/// A lane on BA2 that is left out is warned of with four banks too.
#[test]
fn warnings() {
    let text = "wiring 4\nWRA row 20000\nLAL column 3 upper 4";
    let wanted = "t:3: warning: a write's LAL without lower has the reserved code of BL 4";
    assert_eq!(good(text).warnings.messages("t", "warnings"), [wanted]);
}
