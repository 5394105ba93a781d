//! The program: its arguments, its exit status, and that nothing is written where a line is wrong.

mod common;

use common::{file, last_line, run, said};

const TEXT: &str = "\
# 2 words
DESL x 2                                # 0 to 1
# lasts 10 ns and 0 ps, at 5000 ps a clock
";
const BYTES: [u8; 8] = [0, 0, 0xC, 0, 0, 0, 0xC, 0];

#[test]
fn standard_input_and_output() {
    for files in [&[][..], &["-"], &["-", "-"]] {
        let assembled = run(&[&["assemble"], files].concat(), TEXT.as_bytes());
        assert_eq!(
            (assembled.status.code(), &assembled.stdout[..]),
            (Some(0), &BYTES[..])
        );
        let listed = run(&[&["list"], files].concat(), &BYTES);
        assert_eq!(
            (listed.status.code(), &listed.stdout[..]),
            (Some(0), TEXT.as_bytes())
        );
    }
}

#[test]
fn files() {
    let text = file("files.txt", Some(TEXT.as_bytes()));
    let trace = file("files.trace", None);
    let listed = file("files.listed", None);
    let [text, trace, listed] = [&text, &trace, &listed].map(|path| path.to_str().unwrap());
    assert!(run(&["assemble", text, trace], b"").status.success());
    assert_eq!(std::fs::read(trace).unwrap(), BYTES);
    assert!(run(&["list", trace, listed], b"").status.success());
    assert_eq!(std::fs::read(listed).unwrap(), TEXT.as_bytes());
}

#[test]
fn formats() {
    let by_8 = (
        ["--bl", "2", "--organisation", "8"],
        "bl 2\norganisation 8\n",
    );
    let with_4 = (["--wiring", "4", "--bl", "2"], "bl 2\nwiring 4\n");
    for (options, lines) in [by_8, with_4] {
        let listed = run(&[&["list"], &options[..]].concat(), &[]);
        let text = format!("# 0 words\n{lines}{}", last_line(0));
        assert_eq!(String::from_utf8(listed.stdout).unwrap(), text);
    }
}

/// One word by either wiring; eight banks unless it is asked for.
#[test]
fn wirings() {
    let word = 0x9_8E20u32.to_le_bytes();
    let eight = ("WRA bank 6 row 3616", "");
    let four = ("WRA bank 2 row 20000", "wiring 4\n");
    for (options, (line, heading)) in [
        (&[][..], eight),
        (&["--wiring", "8"], eight),
        (&["--wiring", "4"], four),
    ] {
        let listed = run(&[&["list"], options].concat(), &word);
        let text = format!("# 1 words\n{heading}{line:<40}# 0\n{}", last_line(1));
        assert_eq!(String::from_utf8(listed.stdout).unwrap(), text);
        for text in [&text, line] {
            let assembled = run(&[&["assemble"], options].concat(), text.as_bytes());
            assert_eq!(assembled.stdout, word);
        }
    }
    let wrong = run(&["assemble"], b"DESL\nWRA bank 2 row 20000");
    let wanted = "standard input:2: row 20000 is above 16383; wiring 4 has that row\n";
    assert_eq!(said(&wrong), (Some(1), wanted.to_string()));
    assert!(wrong.stdout.is_empty());
}

#[test]
fn wrong_lines() {
    let text = file("wrong.txt", Some(b"DESL\nWRA bank 9\nNOP\n"));
    let trace = file("wrong.trace", None);
    let kept = file("wrong.kept", Some(b"kept"));
    let name = text.to_str().unwrap();
    let wanted = format!("{name}:2: bank 9 is above 7\n{name}:3: NOP is no command\n");
    for output in [&trace, &kept] {
        let run = run(&["assemble", name, output.to_str().unwrap()], b"");
        assert_eq!(said(&run), (Some(1), wanted.clone()));
        assert!(run.stdout.is_empty());
    }
    assert!(!trace.exists());
    assert_eq!(std::fs::read(kept).unwrap(), b"kept");
}

#[test]
fn a_wrong_line_of_standard_input() {
    for files in [&[][..], &["-"]] {
        let run = run(&[&["assemble"], files].concat(), b"DESL\nNOP");
        let wanted = "standard input:2: NOP is no command\n";
        assert_eq!(said(&run), (Some(1), wanted.to_string()));
        assert!(run.stdout.is_empty());
    }
}

#[test]
fn what_cannot_be_read() {
    for command in ["assemble", "list"] {
        for (name, what) in [
            ("no-such-file", "No such file or directory (os error 2)"),
            ("/", "Is a directory (os error 21)"),
        ] {
            let run = run(&[command, name], b"");
            assert_eq!(said(&run), (Some(1), format!("{name}: {what}\n")));
        }
    }
}

/// What is asked for goes to standard output, and is no error.
#[test]
fn usage_and_version() {
    for arguments in [
        &["--help"][..],
        &["-h"],
        &["list", "--help"],
        &["assemble", "a", "--help"],
    ] {
        let asked = run(arguments, b"");
        assert_eq!(said(&asked), (Some(0), String::new()));
        assert!(asked.stdout.starts_with(b"usage:\n  trace assemble "));
    }
    let asked = run(&["--version"], b"");
    assert_eq!(said(&asked), (Some(0), String::new()));
    let wanted = concat!("trace ", env!("CARGO_PKG_VERSION"), "\n");
    assert_eq!(String::from_utf8(asked.stdout).unwrap(), wanted);
}

#[test]
fn wrong_arguments() {
    let calls: [&[&str]; 36] = [
        &[],
        &["print"],
        &["assemble", "a", "b", "c"],
        &["assemble", "--bl", "2"],
        &["list", "--bl"],
        &["list", "--bl", "3"],
        &["list", "--organisation", "4"],
        &["list", "--cl"],
        &["list", "--cl", "2"],
        &["list", "--cl", "6"],
        &["list", "--cl", "04"],
        &["list", "--cl", "4", "--cl", "4"],
        &["list", "--cl", "3", "--data", "--cl", "5"],
        &["list", "--data", "--data"],
        &["assemble", "--data"],
        &["assemble", "--cl", "4"],
        &["list", "--bl", "2", "--bl", "2"],
        &["list", "--wiring"],
        &["list", "--wiring", "5"],
        &["list", "--wiring", "4", "--wiring", "8"],
        &["assemble", "--wiring"],
        &["assemble", "--wiring", "four"],
        &["assemble", "--wiring", "+4"],
        &["list", "--bl", "04"],
        &["assemble", "--wiring", "4", "-", "--wiring", "4"],
        &["assemble", "--period", "5000"],
        &["list", "--period"],
        &["list", "--period", "3749"],
        &["list", "--period", "8501"],
        &["list", "--period", "05000"],
        &["list", "--period", "5 ns"],
        &["list", "--period", "4294972296"],
        &["list", "--period", "5000", "--period", "5000"],
        &["list", "--force", "--force"],
        &["assemble", "--force"],
        &["list", "--version"],
    ];
    for arguments in calls {
        let (status, what) = said(&run(arguments, b""));
        assert_eq!(status, Some(2), "{arguments:?}");
        assert!(what.starts_with("usage:"));
        assert_eq!(what.matches("[--wiring 4|8]").count(), 2);
        assert_eq!(what.matches("[--data] [--cl 3|4|5]").count(), 1);
    }
}
