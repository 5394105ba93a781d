//! Every fault of a text: the lines are named, and what is wrong with each.

mod common;

use common::faults;

/// Single lines and what is wrong with them.
const LINES: &[(&str, &str)] = &[
    ("NOP", "NOP is no command"),
    ("5", "5 is no command"),
    ("DESLx 5", "DESLx is no command"),
    ("RDA bank 8", "bank 8 is above 7"),
    ("WRA bank 9 row 1", "bank 9 is above 7"),
    ("WRA row 32768", "row 32768 is above 16383"),
    ("RDA row 0x8000", "row 0x8000 is above 16383"),
    (
        "RDA bank 99999999999999999999",
        "bank 99999999999999999999 is above 7",
    ),
    ("RDA bank", "bank has no value"),
    ("RDA bank seven", "bank seven is no number"),
    ("RDA bank -1", "bank -1 is no number"),
    ("RDA bank +1", "bank +1 is no number"),
    ("RDA bank 0x", "bank 0x is no number"),
    ("RDA bank 1_0", "bank 1_0 is no number"),
    ("RDA bank 1 Bank 1", "Bank stands twice"),
    ("RDA column 1", "RDA has no field column"),
    ("RDA 7", "RDA has no field 7"),
    ("WRA lower 4", "WRA has no field lower"),
    ("DESL bank 0", "DESL has no field bank"),
    ("REF bank 0", "REF has no field bank"),
    ("LAL row 0", "LAL has no field row"),
    ("LAL column 256", "column 256 is above 255"),
    ("LAL lower 3", "lower 3 is none of 1, 2, 4, reserved"),
    ("LAL upper 0", "upper 0 is none of 1, 2, 4, reserved"),
    ("LAL lower", "lower has no value"),
    ("MRS", "MRS wants regular or extended"),
    ("MRS 5", "MRS wants regular or extended"),
    ("MRS x 5", "MRS wants regular or extended"),
    ("MRS extended", "extended has no value"),
    ("MRS extended 64", "extended 64 is above 63"),
    ("MRS extended 0 cl 4", "MRS extended has no field cl"),
    ("MRS regular", "cl is missing"),
    ("MRS regular cl 4", "bl is missing"),
    ("MRS regular cl 8 bl 4", "cl 8 is above 7"),
    ("MRS regular cl 4 bl 8", "bl 8 is none of 2, 4"),
    ("MRS regular cl 4 bl 4 a3 2", "a3 2 is above 1"),
    (
        "MRS regular cl 4 bl 4 bank 0",
        "MRS regular has no field bank",
    ),
    ("MRS bl 4 regular", "cl is missing"),
    ("MRS cl regular bl 4", "MRS wants regular or extended"),
    (
        "MRS cl 4 regular bl 4 REGULAR",
        "MRS regular has no field REGULAR",
    ),
    (
        "MRS extended 0 regular cl 4 bl 4",
        "MRS regular has no field extended",
    ),
    ("MRS extended regular", "extended regular is no number"),
    ("WORD", "WORD has no value"),
    ("WORD C0000", "WORD C0000 is no number"),
    ("WORD 0x100000000", "WORD 0x100000000 is above 4294967295"),
    ("WORD 0 bank 0", "WORD has no field bank"),
    ("BYTE", "BYTE has no value"),
    ("BYTE 256", "BYTE 256 is above 255"),
    ("BYTE 0 x 2", "BYTE has no field x"),
    ("DESL x", "x has no value"),
    ("DESL x 0", "x 0 is below 1"),
    ("DESL x 67108865", "x 67108865 is above 67108864"),
    ("DESL x 2 x 3", "x stands twice"),
    ("PDx 20", "PDx is no command"),
    ("PD 20", "PD has no field 20"),
    ("pd cs 0", "pd has no field cs"),
    ("PD x", "x has no value"),
    ("PD x 0", "x 0 is below 1"),
    ("PD x -1", "x -1 is no number"),
    ("PD x 67108865", "x 67108865 is above 67108864"),
    ("PD x 2 X 3", "X stands twice"),
    ("at", "at has no value"),
    ("at 67108865", "at 67108865 is above 67108864"),
    ("at 5 x 2", "at has no field x"),
    ("bl", "bl has no value"),
    ("bl 3", "bl 3 is none of 2, 4"),
    ("bl 4 organisation 8", "bl has no field organisation"),
    ("organisation 4", "organisation 4 is none of 8, 16"),
    ("wiring", "wiring has no value"),
    ("wiring 5", "wiring 5 is none of 4, 8"),
    ("wiring 4 bl 2", "wiring has no field bl"),
];

/// Texts whose last line is wrong after those before it.
const TEXTS: &[(&str, &str)] = &[
    (
        "DESL x 204\nat 203",
        "at 203 is past, the next clock is 204",
    ),
    (
        "DESL x 67108864\nDESL",
        "the trace is longer than 67108864 words",
    ),
    (
        "at 67108864\nREF x 2",
        "the trace is longer than 67108864 words",
    ),
    (
        "PD x 67108863\nPD x 2",
        "the trace is longer than 67108864 words",
    ),
    ("PD x 20\nat 19", "at 19 is past, the next clock is 20"),
    ("DESL\nbl 2", "bl stands after the first word"),
    ("PD\nbl 2", "bl stands after the first word"),
    ("BYTE 0\nbl 2", "bl stands after the first word"),
    (
        "DESL\norganisation 16",
        "organisation stands after the first word",
    ),
    ("REF\nwiring 4", "wiring stands after the first word"),
    ("bl 2\nbl 2", "bl stands twice"),
    ("wiring 4\nwiring 4", "wiring stands twice"),
    (
        "organisation 8\norganisation 16",
        "organisation stands twice",
    ),
    ("bl 2\nLAL lower 4", "lower 4 is none of 1, 2"),
    ("bl 2\nLAL upper reserved", "upper reserved is none of 1, 2"),
    ("organisation 8\nLAL upper 4", "by 8 there is no upper lane"),
    ("organisation 8\nLAL column 512", "column 512 is above 511"),
    ("BYTE 0\nDESL", "a word stands after BYTE"),
    ("BYTE 0\nat 5", "a word stands after BYTE"),
    ("BYTE 0\nPD", "a word stands after BYTE"),
    (
        "BYTE 0\nBYTE 0\nBYTE 0\nBYTE 0",
        "a fourth BYTE would make a word",
    ),
];

#[test]
fn single_lines() {
    for (line, what) in LINES {
        assert_eq!(faults(line.as_bytes()), [format!("t:1: {what}")]);
        let later = format!("DESL x 3 # a comment\n\n  {line} # another\r\nNOP\n");
        match line.split(' ').next() {
            // Such a line is wrong for its place first.
            Some("bl" | "organisation" | "wiring") => {}
            _ => assert_eq!(
                faults(later.as_bytes()),
                [format!("t:3: {what}"), "t:4: NOP is no command".to_string()]
            ),
        }
    }
}

#[test]
fn lines_after_others() {
    for (text, what) in TEXTS {
        let wanted = format!("t:{}: {what}", text.lines().count());
        assert_eq!(faults(text.as_bytes()), [wanted]);
    }
}

/// A wrong line gives no word, and those after it are judged as if it were not there.
#[test]
fn all_wrong_lines() {
    let text = "DESL\nWRA bank 9\n\nRDA bank 1\nLAL row 3\nat 1\nbl 2\nDESL";
    let wanted = [
        "t:2: bank 9 is above 7",
        "t:5: LAL has no field row",
        "t:6: at 1 is past, the next clock is 2",
        "t:7: bl stands after the first word",
    ];
    assert_eq!(faults(text.as_bytes()), wanted);
}

#[test]
fn more_than_are_named() {
    let all = |count: usize| -> Vec<String> {
        let lines = (1..=count).map(|line| format!("t:{}: NOP is no command", 2 * line));
        lines.collect()
    };
    assert_eq!(faults("DESL\nNOP\n".repeat(20).as_bytes()), all(20));
    let more = vec!["t: there are more wrong lines".to_string()];
    for count in [21, 22, 1000] {
        let text = "DESL\nNOP\n".repeat(count);
        assert_eq!(faults(text.as_bytes()), [all(20), more.clone()].concat());
    }
}

/// Past the longest trace every line would be wrong: it is said once.
#[test]
fn nothing_after_the_longest_trace() {
    let text = "NOP\nDESL x 67108864\nDESL\nDESL\nNOP";
    let wanted = [
        "t:1: NOP is no command",
        "t:3: the trace is longer than 67108864 words",
    ];
    assert_eq!(faults(text.as_bytes()), wanted);
}

#[test]
fn what_cannot_be_printed() {
    assert_eq!(
        faults(&b"NOP\x1B[2J\0"[..]),
        ["t:1: NOP\\u{1b}[2J\\u{0} is no command"]
    );
    let long = "N".repeat(100_000);
    let wanted = format!("t:1: {}…", "N".repeat(200));
    assert_eq!(faults(long.as_bytes()), [wanted]);
}

#[test]
fn not_text() {
    assert_eq!(faults(&b"DESL\n\xFF\n"[..]), ["t:2: not UTF-8 text"]);
}
