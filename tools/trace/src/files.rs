//! The files of a call: an input that is open, and an output that is not touched before there is something to write.

use crate::whole;
use std::ffi::{OsStr, OsString};
use std::fs::{File, Metadata};
use std::io::{self, BufWriter, ErrorKind, Read, Write};
use std::os::fd::AsFd;
use std::os::unix::fs::MetadataExt;
use std::path::Path;

/// The argument that stands for standard input or output.
pub const STANDARD: &str = "-";

/// An input, and its name in messages.
pub struct Input {
    pub name: String,
    pub file: File,
}

/// An output by its argument, and its name in messages.
pub struct Output {
    pub name: String,
    argument: OsString,
}

/// Where the content of an output goes.
pub type Content<'a> = BufWriter<&'a File>;

/// A name in messages, with U+FFFD in place of what is no UTF-8.
fn shown(argument: &OsStr, standard: &str) -> String {
    match argument == STANDARD {
        true => standard.to_string(),
        false => argument.to_string_lossy().into_owned(),
    }
}

/// A standard stream as a file.
fn stream(descriptor: impl AsFd) -> io::Result<File> {
    Ok(File::from(descriptor.as_fd().try_clone_to_owned()?))
}

impl Input {
    /// Opens a file or standard input; a failure is a message.
    pub fn open(argument: &OsStr) -> Result<Input, String> {
        let name = shown(argument, "standard input");
        let file = match argument == STANDARD {
            true => stream(io::stdin()),
            false => File::open(argument),
        };
        match file {
            Ok(file) => Ok(Input { name, file }),
            Err(error) => Err(format!("{name}: {error}")),
        }
    }

    /// The bytes, up to so many.
    pub fn bytes(&self, most: u64) -> io::Result<Vec<u8>> {
        let mut bytes = Vec::new();
        (&self.file).take(most).read_to_end(&mut bytes)?;
        Ok(bytes)
    }
}

impl Output {
    /// The output of an argument, which need not exist.
    pub fn new(argument: &OsStr) -> Output {
        Output {
            name: shown(argument, "standard output"),
            argument: argument.to_os_string(),
        }
    }

    /// Whether a file is input and output, by whatever names. A terminal may be both.
    pub fn is(&self, input: &Input) -> bool {
        let identity = |file: Metadata| file.is_file().then(|| (file.dev(), file.ino()));
        let output = match self.argument == STANDARD {
            true => stream(io::stdout()).and_then(|file| file.metadata()),
            false => std::fs::metadata(&self.argument),
        };
        let output = output.ok().and_then(identity);
        output.is_some() && output == input.file.metadata().ok().and_then(identity)
    }

    /// Writes a file or standard output; a failure is a message. A reader that closes a pipe has read enough, and that is none.
    pub fn write(
        &self,
        content: impl FnOnce(&mut Content) -> io::Result<()>,
    ) -> Result<(), String> {
        match self.fill(content) {
            Err(error) if error.kind() != ErrorKind::BrokenPipe => {
                Err(format!("{}: {error}", self.name))
            }
            _ => Ok(()),
        }
    }

    /// Writes a regular file as a whole, and anything else as far as it goes.
    fn fill(&self, content: impl FnOnce(&mut Content) -> io::Result<()>) -> io::Result<()> {
        let through = |file: &File| {
            let mut out = BufWriter::new(file);
            content(&mut out)?;
            out.flush()
        };
        if self.argument == STANDARD {
            return whole::extend(&stream(io::stdout())?, through);
        }
        match whole::place(Path::new(&self.argument))? {
            Some(place) => whole::write(&place, through),
            None => whole::extend(&File::create(&self.argument)?, through),
        }
    }
}
