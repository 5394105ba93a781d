//! A file is written as a whole or not at all, and what is no regular file is written as it is.

mod common;

use common::{piped, run, said};
use std::fs::{self, read, Permissions};
use std::os::unix::fs::{symlink, MetadataExt, PermissionsExt};
use std::path::{Path, PathBuf};
use std::process::Command;

const DESL: [u8; 4] = [0, 0, 0xC, 0];

/// An empty directory of a test's own.
fn directory(name: &str) -> PathBuf {
    let path = Path::new(env!("CARGO_TARGET_TMPDIR")).join(name);
    let _ = fs::remove_dir_all(&path);
    fs::create_dir(&path).unwrap();
    path
}

/// The names in a directory.
fn names(directory: &Path) -> Vec<String> {
    let entries = fs::read_dir(directory).unwrap();
    let mut names: Vec<String> = entries
        .map(|entry| entry.unwrap().file_name().into_string().unwrap())
        .collect();
    names.sort();
    names
}

/// Assembles a text to a file.
fn assemble(text: &str, target: &Path) -> (Option<i32>, String) {
    let target = target.to_str().unwrap();
    said(&run(&["assemble", "-", target], text.as_bytes()))
}

/// Runs the program where a file has room for a few blocks, with arguments as a shell takes them.
fn with_little_room(arguments: &str, inside: &Path) -> (Option<i32>, String) {
    let mut shell = Command::new("sh");
    shell.args(["-c", &format!("ulimit -f 4; exec \"$0\" {arguments}")]);
    shell.arg(env!("CARGO_BIN_EXE_trace"));
    said(&piped(shell).current_dir(inside).output().unwrap())
}

/// No room: an error, no new file, and an old one as it was.
#[test]
fn no_room() {
    let room = directory("no-room");
    fs::write(room.join("text"), "DESL x 100000").unwrap();
    fs::write(room.join("trace"), DESL.repeat(2)).unwrap();
    let long: Vec<u8> = (0..10_000u32).flat_map(u32::to_le_bytes).collect();
    fs::write(room.join("long"), long).unwrap();
    for (command, input) in [("assemble", "text"), ("list", "long")] {
        for target in ["trace", "new"] {
            let ended = with_little_room(&format!("{command} {input} {target}"), &room);
            let wanted = format!("{target}: File too large (os error 27)\n");
            assert_eq!(ended, (Some(1), wanted));
            assert_eq!(names(&room), ["long", "text", "trace"]);
            assert_eq!(read(room.join("trace")).unwrap(), DESL.repeat(2));
        }
    }
}

/// No room in a file that is open: what was written of the trace goes again, and what was there before stays.
#[test]
fn no_room_in_an_open_file() {
    let room = directory("no-room-open");
    fs::write(room.join("text"), "DESL x 100000").unwrap();
    for (how, kept) in [("- >>", "old"), ("- >", ""), ("/dev/stdout >", "")] {
        fs::write(room.join("trace"), "old").unwrap();
        let (status, what) = with_little_room(&format!("assemble text {how} trace"), &room);
        assert_eq!(status, Some(1));
        assert!(what.ends_with(": File too large (os error 27)\n"), "{what}");
        assert_eq!(read(room.join("trace")).unwrap(), kept.as_bytes(), "{how}");
    }
}

/// A file in the place of another has its mode; what may not be written stays.
#[test]
fn modes() {
    let room = directory("modes");
    let target = room.join("trace");
    for mode in [0o600, 0o664, 0o777] {
        fs::write(&target, "old").unwrap();
        fs::set_permissions(&target, Permissions::from_mode(mode)).unwrap();
        assert_eq!(assemble("DESL", &target), (Some(0), String::new()));
        let found = fs::metadata(&target).unwrap();
        assert_eq!((found.mode() & 0o7777, found.len()), (mode, 4));
    }
    fs::remove_file(&target).unwrap();
    assert_eq!(assemble("DESL", &target), (Some(0), String::new()));
    assert_eq!(fs::metadata(&target).unwrap().mode() & 0o111, 0);
    assert_eq!(names(&room), ["trace"]);
}

/// Files and directories without the right to write. No mode stops root, for whom there is nothing to see here.
#[test]
fn no_right_to_write() {
    let room = directory("no-right");
    let target = room.join("trace");
    fs::write(&target, "old").unwrap();
    if fs::metadata(&target).unwrap().uid() == 0 {
        return;
    }
    let denied = "Permission denied (os error 13)\n";
    fs::set_permissions(&target, Permissions::from_mode(0o444)).unwrap();
    let wanted = format!("{}: {denied}", target.display());
    assert_eq!(assemble("DESL", &target), (Some(1), wanted));
    fs::set_permissions(&target, Permissions::from_mode(0o644)).unwrap();
    fs::set_permissions(&room, Permissions::from_mode(0o555)).unwrap();
    let ended = assemble("DESL", &target);
    fs::set_permissions(&room, Permissions::from_mode(0o755)).unwrap();
    let wanted = format!(
        "{}: no new file can be made beside it: {denied}",
        target.display()
    );
    assert_eq!(ended, (Some(1), wanted));
    assert_eq!(read(&target).unwrap(), b"old");
}

/// A link is followed to its file, which may still be missing; a link to itself is an error.
#[test]
fn links() {
    let room = directory("links");
    fs::create_dir(room.join("below")).unwrap();
    for (link, to) in [("one", "two"), ("two", "below/trace"), ("self", "self")] {
        symlink(to, room.join(link)).unwrap();
    }
    for text in ["DESL", "DESL x 2"] {
        assert_eq!(assemble(text, &room.join("one")), (Some(0), String::new()));
        assert!(fs::symlink_metadata(room.join("one")).unwrap().is_symlink());
        assert_eq!(names(&room.join("below")), ["trace"]);
    }
    assert_eq!(read(room.join("below/trace")).unwrap(), DESL.repeat(2));
    assert_eq!(assemble("DESL", &room.join("self")).0, Some(1));
    assert_eq!(names(&room), ["below", "one", "self", "two"]);
}

/// Standard output by its names, as a pipe and as a file that is open; and a name that is as long as names may be.
#[test]
fn other_names() {
    let room = directory("other-names");
    for name in ["/dev/stdout", "/dev/fd/1", "/proc/self/fd/1"] {
        let out = run(&["assemble", "-", name], b"DESL");
        assert_eq!((out.status.code(), &out.stdout[..]), (Some(0), &DESL[..]));
        let mut shell = Command::new("sh");
        shell.args([
            "-c",
            "echo DESL | \"$0\" assemble - \"$1\" >open; echo x >>open",
        ]);
        shell.arg(env!("CARGO_BIN_EXE_trace")).arg(name);
        let ended = piped(shell).current_dir(&room).output().unwrap();
        assert_eq!(said(&ended), (Some(0), String::new()));
        assert_eq!(
            read(room.join("open")).unwrap(),
            [&DESL[..], b"x\n"].concat()
        );
    }
    let long = "n".repeat(255);
    assert_eq!(
        assemble("DESL", &room.join(&long)),
        (Some(0), String::new())
    );
    assert_eq!(names(&room), [&long, "open"]);
    for name in ["", ".", "/", "missing/trace", "open/trace"] {
        assert_eq!(
            run(&["assemble", "/dev/null", name], b"").status.code(),
            Some(1)
        );
    }
}
