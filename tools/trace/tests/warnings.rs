//! A write's lane that is left out at BL 4 is worth a warning; its word is the same without.

mod common;

use common::{assembled, file, run, said, warnings};

/// The warning on a line, which lacks such lanes.
fn warning(line: u64, lanes: &str) -> String {
    format!("t:{line}: warning: a write's LAL without {lanes} has the reserved code of BL 4")
}

#[test]
fn lanes_that_are_left_out() {
    for (lal, lanes) in [
        ("LAL column 3", "lower or upper"),
        ("lal", "lower or upper"),
        ("LAL column 3 x 2", "lower or upper"),
        ("LAL column 3 lower 4", "upper"),
        ("LAL upper reserved", "lower"),
    ] {
        assert_eq!(warnings(&format!("WRA\n\n{lal}")), [warning(3, lanes)]);
    }
    let by_8 = "organisation 8\nWRA\nLAL column 3";
    assert_eq!(warnings(by_8), [warning(3, "lower")]);
}

#[test]
fn lanes_that_are_there() {
    for text in [
        "WRA\nLAL lower 4 upper 1",
        "WRA\nLAL lower reserved upper reserved",
        "organisation 8\nWRA\nLAL lower 2",
        "bl 2\nWRA\nLAL column 3",
        "bl 2\norganisation 8\nWRA\nLAL column 3",
    ] {
        assert_eq!(warnings(text), [""; 0], "{text}");
    }
}

/// Whether a LAL closes a write goes by the words before it, and not by their names.
#[test]
fn the_pair_that_is_open() {
    for opening in [
        "RDA\nMRS extended 0\nWRA",
        "WRA\nREF\nWRA bank 2",
        "WRA x 3",
        "REF",
        "MRS extended 0",
        "WORD 0xFFF80000",
        "PD x 3\nWRA",
        "WORD 0\nWRA",
        "WRA\nPD\nWRA",
        "WRA\nWORD 0 x 2\nWRA",
        "RDA x 2\nWRA",
        "RDA\nLAL\nDESL x 5\nWRA",
        "WRA\nat 8\nWRA",
    ] {
        let line = opening.lines().count() as u64 + 1;
        let text = format!("{opening}\nLAL column 3");
        let last = warnings(&text).pop();
        assert_eq!(last, Some(warning(line, "lower or upper")), "{text}");
    }
    for other in [
        "",
        "DESL",
        "RDA",
        "RDA x 3",
        "PD",
        "WORD 0",
        "WORD 0x20000",
        "WORD 0xA0000",
        "WRA x 2",
        "WRA\nREF",
        "WRA\nDESL",
        "WRA\nPD",
        "WRA\nWORD 0",
        "WRA\nat 5",
        "RDA\nWRA",
        "WRA\nLAL lower 4 upper 4",
    ] {
        let text = format!("{other}\nLAL column 3");
        let said = warnings(&text).concat();
        assert!(!said.contains("reserved"), "{text}\n{said}");
    }
}

/// What is said of a word, and where it stands, goes by its line; a bare word is worth no warning.
#[test]
fn no_lal_line() {
    for text in ["WRA\nDESL", "WRA\nat 7"] {
        assert!(!warnings(text).concat().contains("reserved"), "{text}");
    }
    assert_eq!(warnings("WRA\nWORD 0xC0003"), [""; 0]);
}

#[test]
fn more_than_are_named() {
    let mut wanted: Vec<String> = (1..=20)
        .map(|pair| warning(2 * pair, "lower or upper"))
        .collect();
    assert_eq!(warnings(&"WRA\nLAL\n".repeat(20)), wanted);
    wanted.push("t: there are more warnings".to_string());
    assert_eq!(warnings(&"WRA\nLAL\n".repeat(30)), wanted);
}

#[test]
fn by_the_program() {
    let text = "WRA bank 1\nLAL column 3\n";
    let name = file("warned.txt", Some(text.as_bytes()));
    let name = name.to_str().unwrap();
    let warned = run(&["assemble", name], b"");
    let wanted = warning(2, "lower or upper").replacen('t', name, 1) + "\n";
    assert_eq!(said(&warned), (Some(0), wanted));
    assert_eq!(warned.stdout, assembled(text));

    let wrong = run(&["assemble"], format!("{text}NOP\n").as_bytes());
    let wanted = "standard input:3: NOP is no command\n".to_string();
    assert_eq!(said(&wrong), (Some(1), wanted));
    assert!(wrong.stdout.is_empty());
}
