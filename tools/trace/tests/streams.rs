//! Standard streams that are closed, and input that is text where a trace belongs.

mod common;

use common::{file, piped, run, said};
use std::fs::read;
use std::process::Command;
use trace::is_text;

/// Runs the program in a shell, which closes or redirects streams as `how` says.
fn shell(arguments: &str, how: &str) -> (Option<i32>, String) {
    let mut shell = Command::new("sh");
    shell.args(["-c", &format!("exec \"$0\" {arguments} {how}")]);
    shell.arg(env!("CARGO_BIN_EXE_trace"));
    said(&piped(shell).output().expect("the shell runs"))
}

#[test]
fn closed() {
    let source = file("closed.source", Some(&[0, 0, 0xC, 0]));
    let target = file("closed.target", None);
    let (source, target) = (source.to_str().unwrap(), target.to_str().unwrap());
    for (arguments, how, name) in [
        ("assemble - TARGET", "<&-", "input"),
        ("assemble /dev/stdin TARGET", "<&-", "input"),
        ("list SOURCE TARGET", "<&-", "input"),
        ("list SOURCE", ">&-", "output"),
        ("list SOURCE /dev/stdout", ">&-", "output"),
        ("assemble /dev/null TARGET", ">&-", "output"),
        ("--help", ">&-", "output"),
        ("--version", ">&-", "output"),
    ] {
        let arguments = arguments.replace("SOURCE", source);
        let ended = shell(&arguments.replace("TARGET", target), how);
        let wanted = format!("standard {name} is closed\n");
        assert_eq!(ended, (Some(1), wanted), "{arguments} {how}");
        assert!(read(target).is_err());
    }
}

/// The device in the place of a stream is none that is closed, however it is opened.
#[test]
fn nothing_is_not_closed() {
    for command in ["assemble", "list"] {
        for how in [
            "</dev/null >/dev/null",
            "<>/dev/null 1<>/dev/null",
            "</dev/null 2>&-",
        ] {
            assert_eq!(shell(command, how), (Some(0), String::new()));
        }
    }
}

#[test]
fn what_text_is() {
    for text in [
        "a",
        "DESL\r\n",
        "\u{FEFF}DESL",
        "# gr\u{FC}n \u{1F4C4}\n",
        "\x01\x7F",
    ] {
        assert!(is_text(text.as_bytes()), "{text:?}");
    }
    for other in [
        &b""[..],
        b"\0",
        b"DESL\0",
        b"DES\xC3",
        b"\xFFDESL",
        b"\xED\xA0\x80",
        b"\xC0\xAFx",
        b"\xF5\x80\x80\x80",
    ] {
        assert!(!is_text(other), "{other:?}");
    }
}

#[test]
fn text_for_a_trace() {
    let trace = file("kept.trace", Some(&[0, 0, 0xC, 0]));
    let trace = trace.to_str().unwrap();
    let marked = "\u{FEFF}# gr\u{FC}n\n".as_bytes();
    for text in [&b"DESL"[..], marked] {
        let name = file("listed.txt", Some(text));
        let name = name.to_str().unwrap();
        let (status, what) = said(&run(&["list", name, trace], b""));
        assert_eq!(status, Some(1));
        assert!(
            what.starts_with(&format!("{name}: the input is text")),
            "{what}"
        );
        assert_eq!(read(trace).unwrap(), [0, 0, 0xC, 0]);
        let told = run(&["list", "--force", name], b"");
        assert_eq!(said(&told), (Some(0), String::new()));
        assert_eq!(
            common::assembled(&String::from_utf8(told.stdout).unwrap()),
            text
        );
    }
    let piped = said(&run(&["list"], b"DESL"));
    assert!(piped.1.starts_with("standard input: the input is text"));
    assert_eq!(run(&["list"], b"").status.code(), Some(0));
}
