//! The files of a call: names that are no text, outputs that cannot be written, and one file under two names.

mod common;

use common::{file, program, run, said};
use std::ffi::{OsStr, OsString};
use std::fs::{read, File};
use std::io::{BufRead, BufReader};
use std::os::unix::ffi::OsStrExt;
use std::path::{Path, PathBuf};

const TEXT: &[u8] = b"\
# 1 words
DESL                                    # 0
# lasts 5 ns and 0 ps, at 5000 ps a clock
";
const BYTES: [u8; 4] = [0, 0, 0xC, 0];

#[test]
fn names_that_are_no_text() {
    let name = |end: &[u8]| PathBuf::from(OsStr::from_bytes(&[b"no \xFF text", end].concat()));
    let text = file(name(b".txt"), Some(TEXT));
    let trace = file(name(b".trace"), None);
    let listed = file(name(b".listed"), None);
    let call = |command: &str, files: &[&PathBuf]| {
        let files = files.iter().map(|file| file.as_os_str().to_os_string());
        let arguments: Vec<OsString> = [command.into()].into_iter().chain(files).collect();
        said(&run(&arguments, b""))
    };
    assert_eq!(call("assemble", &[&text, &trace]), (Some(0), String::new()));
    assert_eq!(read(&trace).unwrap(), BYTES);
    assert_eq!(call("list", &[&trace, &listed]), (Some(0), String::new()));
    assert_eq!(read(&listed).unwrap(), TEXT);

    let wrong = file(name(b".wrong"), Some(b"NOP"));
    let wanted = format!("{}:1: NOP is no command\n", wrong.to_string_lossy());
    assert!(wanted.contains("no \u{FFFD} text.wrong"));
    assert_eq!(call("assemble", &[&wrong]), (Some(1), wanted));
    let (status, what) = call("list", &[&name(b".none")]);
    assert_eq!(status, Some(1));
    assert!(what.starts_with("no \u{FFFD} text.none: No such file"));
    for arguments in [&[&b"list"[..], b"--\xFF"], &[b"list\xFF", b"x"]] {
        let arguments = arguments.map(OsStr::from_bytes);
        assert_eq!(run(&arguments, b"").status.code(), Some(2));
    }
}

/// A trace whose words, and whose listing, no pipe holds.
fn large(name: &str) -> PathBuf {
    let bytes: Vec<u8> = (0..200_000u32).flat_map(u32::to_le_bytes).collect();
    file(name, Some(&bytes))
}

#[test]
fn a_reader_that_has_read_enough() {
    let trace = large("pipe.trace");
    let text = file("pipe.txt", None);
    let [trace, text] = [&trace, &text].map(|path| path.to_str().unwrap());
    assert!(run(&["list", trace, text], b"").status.success());
    for arguments in [["list", trace], ["assemble", text]] {
        let mut child = program(&arguments).spawn().expect("the program runs");
        let mut reader = BufReader::new(child.stdout.take().expect("it has an output"));
        reader.read_until(b'\n', &mut Vec::new()).unwrap();
        drop(reader);
        let ended = child.wait_with_output().expect("the program ends");
        assert_eq!(said(&ended), (Some(0), String::new()));
    }
}

#[test]
fn what_cannot_be_written() {
    let trace = large("full.trace");
    let trace = trace.to_str().unwrap();
    let full = "No space left on device (os error 28)\n";
    let to_file = run(&["list", trace, "/dev/full"], b"");
    assert_eq!(said(&to_file), (Some(1), format!("/dev/full: {full}")));

    let device = || File::options().write(true).open("/dev/full").unwrap();
    let to_stream = program(&["list", trace]).stdout(device()).output().unwrap();
    assert_eq!(
        said(&to_stream),
        (Some(1), format!("standard output: {full}"))
    );

    let unheard = program(&["list", "no-such-file"]).stderr(device()).output();
    assert_eq!(unheard.unwrap().status.code(), Some(1));
    let no_directory = run(&["list", trace, "no-such-directory/text"], b"");
    let wanted = "no-such-directory/text: No such file or directory (os error 2)\n";
    assert_eq!(said(&no_directory), (Some(1), wanted.to_string()));
}

/// A directory with a source, a hard link and a symbolic link to it.
fn with_links(name: &str, content: &[u8]) -> PathBuf {
    let directory = Path::new(env!("CARGO_TARGET_TMPDIR")).join(name);
    let _ = std::fs::remove_dir_all(&directory);
    std::fs::create_dir(&directory).unwrap();
    let source = directory.join("source");
    std::fs::write(&source, content).unwrap();
    std::fs::hard_link(&source, directory.join("hard")).unwrap();
    std::os::unix::fs::symlink("source", directory.join("soft")).unwrap();
    directory
}

#[test]
fn one_file_as_input_and_output() {
    for (command, content) in [("assemble", TEXT), ("list", &BYTES)] {
        let directory = with_links(command, content);
        let source = directory.join("source");
        for (input, output) in [
            ("source", "source"),
            ("source", "./source"),
            ("source", source.to_str().unwrap()),
            ("source", "hard"),
            ("soft", "source"),
            ("hard", "soft"),
        ] {
            let mut call = program(&[command, input, output]);
            let ended = call.current_dir(&directory).output().unwrap();
            let wanted = format!("{output}: input and output are the same file\n");
            assert_eq!(said(&ended), (Some(1), wanted));
            assert_eq!(read(&source).unwrap(), content);
        }
    }
}

#[test]
fn one_file_as_a_standard_stream() {
    for (command, content) in [("assemble", TEXT), ("list", &BYTES)] {
        let source = file(format!("stream.{command}"), Some(content));
        let name = source.to_str().unwrap();
        let input = || File::open(&source).unwrap();
        let output = File::options().append(true).open(&source).unwrap();

        let to_file = program(&[command, "-", name]).stdin(input()).output();
        let wanted = format!("{name}: input and output are the same file\n");
        assert_eq!(said(&to_file.unwrap()), (Some(1), wanted));
        let to_stream = program(&[command, name]).stdout(output).output();
        let wanted = "standard output: input and output are the same file\n";
        assert_eq!(said(&to_stream.unwrap()), (Some(1), wanted.to_string()));
        assert_eq!(read(&source).unwrap(), content);
    }
}

/// What is no regular file may be both.
#[test]
fn one_device_as_input_and_output() {
    for command in ["assemble", "list"] {
        let ended = run(&[command, "/dev/null", "/dev/null"], b"");
        assert_eq!(said(&ended), (Some(0), String::new()));
    }
}
