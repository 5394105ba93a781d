//! A program under comparison: runs it on an input and takes what it writes.

use std::fs::File;
use std::io::{Read, Write};
use std::os::fd::OwnedFd;
use std::os::unix::net::UnixStream;
use std::path::Path;
use std::process::{ChildStdin, ChildStdout, Command, Stdio};
use std::sync::mpsc;
use std::thread;
use std::time::Duration;

/// How long one run may take.
const PATIENCE: Duration = Duration::from_secs(300);

/// How a program gets its standard input.
#[derive(Clone, Copy, Debug, PartialEq, Eq)]
pub enum Feed<'a> {
    /// By a pipe, all at once.
    Pipe,
    /// By a pipe, so many bytes at a time with a pause after each, so that reads fall short.
    Pieces(usize),
    /// From a file, which is written at this path first and removed once it is open.
    File(&'a Path),
    /// By a socket that does not wait: so many bytes at the start and the rest, by the word, after a pause,
    /// so that a read between them fails. What the program says of that on standard error is dropped.
    Unready(usize, Duration),
}

/// What a run gave: the bytes on standard output and the exit code.
#[derive(Debug)]
pub struct Output {
    pub bytes: Vec<u8>,
    pub code: i32,
}

/// An input of which so many bytes are there, and the rest comes later.
fn unready(input: &[u8], first: usize, pause: Duration) -> std::io::Result<Stdio> {
    let (mut ours, theirs) = UnixStream::pair()?;
    theirs.set_nonblocking(true)?;
    ours.write_all(&input[..first])?;
    let rest = input[first..].to_vec();
    thread::spawn(move || {
        thread::sleep(pause);
        rest.chunks(4).try_for_each(|word| ours.write_all(word))
    });
    Ok(Stdio::from(OwnedFd::from(theirs)))
}

/// The standard input that a program starts with.
fn stdin(input: &[u8], feed: Feed) -> Result<Stdio, String> {
    match feed {
        Feed::File(file) => {
            std::fs::write(file, input).map_err(|e| format!("{}: {e}", file.display()))?;
            let opened = File::open(file).map_err(|e| e.to_string())?;
            let _ = std::fs::remove_file(file);
            Ok(Stdio::from(opened))
        }
        Feed::Unready(first, pause) => unready(input, first, pause).map_err(|e| e.to_string()),
        _ => Ok(Stdio::piped()),
    }
}

/// Writes an input into a pipe, so many bytes at a time. A program may stop reading at what it refuses, so
/// a failed write is no fault.
fn write_all(mut pipe: ChildStdin, input: Vec<u8>, size: usize) {
    thread::spawn(move || {
        for piece in input.chunks(size) {
            if pipe.write_all(piece).is_err() {
                return;
            }
            if size < input.len() {
                thread::sleep(Duration::from_micros(200));
            }
        }
    });
}

/// What a program writes up to its end; none if that takes too long.
fn read_all(mut output: ChildStdout) -> Option<std::io::Result<Vec<u8>>> {
    let (done, finished) = mpsc::channel();
    thread::spawn(move || {
        let mut bytes = Vec::new();
        let read = output.read_to_end(&mut bytes);
        done.send(read.map(|_| bytes))
    });
    finished.recv_timeout(PATIENCE).ok()
}

/// Runs the program at a path on an input. Fails if it cannot run, does not end, or a signal ends it.
pub fn run(path: &Path, input: &[u8], feed: Feed) -> Result<Output, String> {
    let stderr = match feed {
        Feed::Unready(..) => Stdio::null(),
        _ => Stdio::inherit(),
    };
    let mut child = Command::new(path)
        .stdin(stdin(input, feed)?)
        .stdout(Stdio::piped())
        .stderr(stderr)
        .spawn()
        .map_err(|e| format!("{}: {e}", path.display()))?;
    if let Some(pipe) = child.stdin.take() {
        let size = match feed {
            Feed::Pieces(size) => size,
            _ => input.len().max(1),
        };
        write_all(pipe, input.to_vec(), size);
    }
    let Some(bytes) = read_all(child.stdout.take().unwrap()) else {
        let _ = child.kill();
        return Err(format!("no end after {} s", PATIENCE.as_secs()));
    };
    let bytes = bytes.map_err(|e| e.to_string())?;
    let status = child.wait().map_err(|e| e.to_string())?;
    match status.code() {
        Some(code) => Ok(Output { bytes, code }),
        None => Err(format!("ended by a signal: {status}")),
    }
}
