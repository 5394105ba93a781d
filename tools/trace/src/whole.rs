//! Files that are written as a whole or not at all: the content goes to a new file beside the place, which takes the place in the end.

use std::fs::{self, File, Metadata};
use std::io::{self, ErrorKind, Seek, SeekFrom};
use std::os::unix::fs::{fchown, MetadataExt};
use std::path::{Path, PathBuf};

/// As many links as the system follows.
const MOST_LINKS: usize = 40;

/// The file that a name leads to through its links, if it is a regular file or is still to be made. None where it is something else,
/// as a device or a pipe, or stands for a file that is open already, as the names below /proc do, and /dev/stdout with them.
pub fn place(name: &Path) -> io::Result<Option<PathBuf>> {
    let mut path = name.to_path_buf();
    for _ in 0..MOST_LINKS {
        let Some(parent) = directory(&path) else {
            return Ok(None);
        };
        if parent.canonicalize()?.starts_with("/proc") {
            return Ok(None);
        }
        match path.symlink_metadata() {
            Ok(found) if found.is_symlink() => path = parent.join(path.read_link()?),
            Ok(found) => return Ok(found.is_file().then_some(path)),
            Err(error) if error.kind() == ErrorKind::NotFound => return Ok(Some(path)),
            Err(error) => return Err(error),
        }
    }
    Ok(None)
}

/// The directory that a path stands in.
fn directory(path: &Path) -> Option<PathBuf> {
    let parent = path.parent()?;
    Some(match parent.as_os_str().is_empty() {
        true => PathBuf::from("."),
        false => parent.to_path_buf(),
    })
}

/// Writes the file of a place. After an error the place is as it was, and nothing is left beside it.
pub fn write(place: &Path, content: impl FnOnce(&File) -> io::Result<()>) -> io::Result<()> {
    let former = former(place)?;
    let (draft, file) = beside(place).map_err(|error| match former {
        Some(_) => unfit(error),
        None => error,
    })?;
    let done = content(&file)
        .and_then(|()| former.map_or(Ok(()), |former| keep(&file, &former)))
        // Some disks say only here that they are full.
        .and_then(|()| file.sync_all())
        .and_then(|()| fs::rename(&draft, place));
    if done.is_err() {
        // What was said of the first error is what counts.
        let _ = fs::remove_file(&draft);
    }
    done
}

/// Writes to a file that is open. After an error a regular file has the length that it had.
pub fn extend(mut file: &File, content: impl FnOnce(&File) -> io::Result<()>) -> io::Result<()> {
    let former = file.metadata().ok().filter(Metadata::is_file);
    let position = file.stream_position().unwrap_or(0);
    let done = content(file);
    if let (Err(_), Some(former)) = (&done, former) {
        // What was said of the first error is what counts.
        let _ = file.set_len(former.len());
        let _ = file.seek(SeekFrom::Start(position));
    }
    done
}

/// The file that is there, which must be one that may be written.
fn former(place: &Path) -> io::Result<Option<Metadata>> {
    match File::options().write(true).open(place) {
        Ok(file) => file.metadata().map(Some),
        Err(error) if error.kind() == ErrorKind::NotFound => Ok(None),
        Err(error) => Err(error),
    }
}

/// A new file beside a place.
fn beside(place: &Path) -> io::Result<(PathBuf, File)> {
    let mut count = 0;
    loop {
        let path = place.with_file_name(format!(".trace-{}-{count}", std::process::id()));
        match File::create_new(&path) {
            Err(error) if error.kind() == ErrorKind::AlreadyExists => count += 1,
            made => return made.map(|file| (path, file)),
        }
    }
}

/// That a file is there and may be written, and none can be made beside it.
fn unfit(error: io::Error) -> io::Error {
    let what = format!("no new file can be made beside it: {error}");
    io::Error::new(error.kind(), what)
}

/// Gives a file the mode of the one whose place it takes, and its owner and group as far as the caller may.
fn keep(file: &File, former: &Metadata) -> io::Result<()> {
    let _ = fchown(file, None, Some(former.gid()));
    let _ = fchown(file, Some(former.uid()), None);
    file.set_permissions(former.permissions())
}
