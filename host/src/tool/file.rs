//! Files: a pool is changed under its lock, an output never lands on an input, and both are written whole or not at
//! all.
//!
//! What a verb needs: [`read`] for a pool that is looked at, [`Held`] for one that is changed, [`write`] for a file
//! that it makes. What is no regular file is written through, since a new file in its place would not be the device
//! or the pipe that is meant.

mod beside;
mod held;

use std::fs::{self, File, Metadata, OpenOptions};
use std::io::{self, ErrorKind, Read, Write};
use std::os::fd::AsFd;
use std::os::unix::fs::MetadataExt;

use super::Stop;
use beside::Beside;
pub(crate) use held::Held;

/// Longest file that is read as a pool, so that a device without an end does not take the memory.
const MOST_BYTES: u64 = 1 << 28;

/// The bytes of a file, which is left alone; somebody who is changing it is waited for.
pub(crate) fn read(name: &str) -> Result<Vec<u8>, Stop> {
    all(name, &held::to_look_at(name)?)
}

/// The bytes of an open file from where it stands.
fn all(name: &str, file: &File) -> Result<Vec<u8>, Stop> {
    let mut bytes = Vec::new();
    file.take(MOST_BYTES + 1).read_to_end(&mut bytes).map_err(|error| trouble(name, error))?;
    match bytes.len() as u64 > MOST_BYTES {
        true => Err(Stop::wrong(format!("{name} is longer than any pool or dump of one"))),
        false => Ok(bytes),
    }
}

/// The text of a file, or of standard input for `-`.
pub(super) fn read_text(name: &str) -> Result<String, Stop> {
    let mut text = String::new();
    let read = match name {
        "-" => io::stdin().read_to_string(&mut text).map(|_| ()),
        _ => File::open(name).and_then(|mut file| file.read_to_string(&mut text)).map(|_| ()),
    };
    read.map(|()| text).map_err(|error| trouble(name, error))
}

/// Writes a file that a verb makes out of its inputs, or text to standard output for `-`; a file that is there
/// already is replaced with `force` alone.
pub(crate) fn write(name: &str, bytes: &[u8], inputs: &[&str], force: bool) -> Result<(), Stop> {
    // A pool is no text, and what a verb says of it would land behind it there.
    if name == "-" && std::str::from_utf8(bytes).is_ok() {
        let out = io::stdout().as_fd().try_clone_to_owned();
        return through(name, &mut out.map_err(|error| trouble(name, error))?.into(), bytes);
    }
    let Some(old) = found(name)? else {
        return Beside::create(name, bytes);
    };
    if let Some(input) = inputs.iter().find(|input| fs::metadata(input).is_ok_and(|input| same(&input, &old))) {
        return Err(Stop::wrong(format!("{name} is the file that is read ({input}); it is not written over")));
    }
    write_over(name, &old, bytes, force)
}

/// Writes where something is already.
fn write_over(name: &str, old: &Metadata, bytes: &[u8], force: bool) -> Result<(), Stop> {
    // Opened anew, a file that standard output leads to would be written from its beginning.
    if let Some(mut out) = own_output(old) {
        return through(name, &mut out, bytes);
    }
    if !old.is_file() {
        let mut file = OpenOptions::new().write(true).open(name).map_err(|error| trouble(name, error))?;
        return through(name, &mut file, bytes);
    }
    if !force {
        return Err(Stop::wrong(format!("{name} is there already; --force writes it anew, and what it holds is lost")));
    }
    Held::open(name)?.replace(bytes)
}

/// What stands under a name, if anything does.
fn found(name: &str) -> Result<Option<Metadata>, Stop> {
    match fs::metadata(name) {
        Ok(about) => Ok(Some(about)),
        // A link that leads nowhere would be replaced by a file.
        Err(error) if error.kind() == ErrorKind::NotFound && fs::symlink_metadata(name).is_ok() => {
            Err(Stop::wrong(format!("{name} is a link to a file that is not there")))
        }
        Err(error) if error.kind() == ErrorKind::NotFound => Ok(None),
        Err(error) => Err(trouble(name, error)),
    }
}

/// Says whether two are one file, by whatever names.
fn same(one: &Metadata, other: &Metadata) -> bool {
    (one.dev(), one.ino()) == (other.dev(), other.ino())
}

/// Standard output or standard error, where a name leads to it.
fn own_output(about: &Metadata) -> Option<File> {
    let own = [io::stdout().as_fd().try_clone_to_owned(), io::stderr().as_fd().try_clone_to_owned()];
    let mut own = own.into_iter().flatten().map(File::from);
    own.find(|own| own.metadata().is_ok_and(|own| same(&own, about)))
}

/// Writes where the name leads; a reader that has left has read enough.
fn through(name: &str, file: &mut File, bytes: &[u8]) -> Result<(), Stop> {
    match file.write_all(bytes).and_then(|()| file.flush()) {
        Err(error) if error.kind() == ErrorKind::BrokenPipe => Ok(()),
        written => written.map_err(|error| trouble(name, error)),
    }
}

fn trouble(name: &str, error: io::Error) -> Stop {
    Stop::wrong(format!("{name}: {error}"))
}

#[cfg(test)]
mod tests {
    use super::*;
    use crate::tool::trial::Folder;

    #[test]
    fn a_file_is_replaced_whole_and_nothing_is_left_beside_it() {
        let folder = Folder::new("file");
        let name = folder.file("a");
        write(&name, b"one", &[], false).expect("is written");
        assert_eq!(write(&name, b"another", &[], false).map_err(|stop| stop.status), Err(2));
        assert_eq!(read(&name), Ok(b"one".to_vec()));
        write(&name, b"another", &[], true).expect("is written");
        assert_eq!(read(&name), Ok(b"another".to_vec()));
        assert_eq!(folder.names(), ["a"]);
    }

    #[test]
    fn a_file_that_cannot_be_written_stays() {
        let folder = Folder::new("no-file");
        let name = folder.file("a");
        fs::create_dir(&name).expect("a folder where a file should be");
        assert_eq!(write(&name, b"one", &[], true).map_err(|stop| stop.status), Err(2));
        assert_eq!(folder.names(), ["a"]);
    }

    #[test]
    fn a_link_is_followed_and_one_that_leads_nowhere_stays() {
        let folder = Folder::new("link");
        let (name, link) = (folder.file("a"), folder.file("link"));
        std::os::unix::fs::symlink("a", &link).expect("a link");
        assert_eq!(write(&link, b"one", &[], true).map_err(|stop| stop.status), Err(2));
        write(&name, b"one", &[], false).expect("is written");
        write(&link, b"another", &[], true).expect("is written");
        assert_eq!(read(&name), Ok(b"another".to_vec()));
        assert!(fs::symlink_metadata(&link).is_ok_and(|about| about.is_symlink()));
        assert_eq!(folder.names(), ["a", "link"]);
    }

    #[test]
    fn what_a_holder_replaced_it_still_holds() {
        let folder = Folder::new("held");
        let name = folder.file("a");
        write(&name, b"one", &[], false).expect("is written");
        let mut held = Held::open(&name).expect("is there");
        for bytes in [&b"another"[..], b"a third"] {
            held.replace(bytes).expect("is written");
            assert!(File::open(&name).expect("is there").try_lock_shared().is_err(), "the new file is locked too");
        }
        drop(held);
        assert_eq!(read(&name), Ok(b"a third".to_vec()));
    }
}
