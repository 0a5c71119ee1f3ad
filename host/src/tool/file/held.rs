//! The lock of a file: one process changes it at a time, and nobody reads what is half written.
//!
//! The file itself is locked, since a lock file beside it would be left behind by whoever is killed. A change puts
//! a new file in its place, and a lock on the old one then keeps nobody away: so whoever has got the lock looks
//! again whether the name still leads to the file that is locked, and begins anew where it does not.

use std::fs::{self, File, Metadata, OpenOptions, TryLockError};
use std::io::{self, ErrorKind, Seek};
use std::os::unix::fs::{FileTypeExt, MetadataExt};
use std::path::PathBuf;
use std::thread::sleep;
use std::time::{Duration, Instant};

use super::beside::Beside;
use super::{all, own_output, same, through, trouble};
use crate::output::note;
use crate::tool::Stop;

/// How long another process is waited for without a word.
const PATIENCE: Duration = Duration::from_millis(500);
/// How long between two looks whether it is done.
const PAUSE: Duration = Duration::from_millis(2);

/// A file that nobody else changes or reads until this is dropped.
pub(crate) struct Held {
    name: String,
    /// Where the name leads, all links followed.
    place: PathBuf,
    file: File,
}

impl Held {
    /// Locks a file that is to be changed; another process that has it locked is waited for.
    pub fn open(name: &str) -> Result<Held, Stop> {
        let wrong = |error| trouble(name, error);
        loop {
            let place = fs::canonicalize(name).map_err(wrong)?;
            let about = fs::metadata(&place).map_err(wrong)?;
            changeable(name, &about)?;
            not_told_to(name, &about)?;
            let file = OpenOptions::new().read(true).write(true).open(&place).map_err(wrong)?;
            locked(name, &file, File::try_lock, File::lock).map_err(wrong)?;
            if leads_to(name, &file).map_err(wrong)? {
                return Ok(Held { name: name.to_string(), place, file });
            }
        }
    }

    /// The bytes of the file.
    pub fn read(&mut self) -> Result<Vec<u8>, Stop> {
        self.file.rewind().map_err(|error| trouble(&self.name, error))?;
        all(&self.name, &self.file)
    }

    /// Gives the file other bytes, whole or not at all; the lock stays on what the name leads to. A block device has
    /// no other that could take its place, and is written where it stands.
    pub fn replace(&mut self, bytes: &[u8]) -> Result<(), Stop> {
        let wrong = |error| trouble(&self.name, error);
        let old = self.file.metadata().map_err(wrong)?;
        if !old.is_file() {
            self.file.rewind().map_err(wrong)?;
            through(&self.name, &mut self.file, bytes)?;
            return self.file.sync_all().map_err(|error| trouble(&self.name, error));
        }
        self.file = Beside::filled(&self.name, &self.place, bytes, Some(&old))?.replace()?;
        Ok(())
    }
}

/// Opens a file that is only looked at, and waits until nobody changes it.
pub(super) fn to_look_at(name: &str) -> Result<File, Stop> {
    let wrong = |error| trouble(name, error);
    loop {
        let file = File::open(name).map_err(wrong)?;
        let about = file.metadata().map_err(wrong)?;
        // A pipe or a terminal has nobody to be kept away.
        if !is_kept(&about) {
            return Ok(file);
        }
        not_told_to(name, &about)?;
        locked(name, &file, File::try_lock_shared, File::lock_shared).map_err(wrong)?;
        if leads_to(name, &file).map_err(wrong)? {
            return Ok(file);
        }
    }
}

/// Refuses a file that standard output or standard error leads to: what is said would land on it.
fn not_told_to(name: &str, about: &Metadata) -> Result<(), Stop> {
    match own_output(about) {
        None => Ok(()),
        Some(_) => Err(Stop::wrong(format!("{name} is the file that is read, and what is said would go to it too"))),
    }
}

/// Says whether what is written stays there to be read.
fn is_kept(about: &Metadata) -> bool {
    about.is_file() || about.file_type().is_block_device()
}

/// Refuses what cannot be changed, and what its owner has set to be only read: also to root, whom nothing else stops.
fn changeable(name: &str, about: &Metadata) -> Result<(), Stop> {
    if about.is_dir() || !is_kept(about) {
        return Err(Stop::wrong(format!("{name} is no file that can be changed")));
    }
    if about.permissions().readonly() {
        let mode = about.mode() & 0o7777;
        return Err(Stop::wrong(format!(
            "{name} is read-only (mode {mode:04o}) and left as it is; chmod u+w allows it"
        )));
    }
    Ok(())
}

/// Gets a lock, and says so where it takes more than a moment.
fn locked(
    name: &str,
    file: &File,
    attempt: fn(&File) -> Result<(), TryLockError>,
    wait: fn(&File) -> io::Result<()>,
) -> io::Result<()> {
    let start = Instant::now();
    while start.elapsed() < PATIENCE {
        match attempt(file) {
            Err(TryLockError::WouldBlock) => sleep(PAUSE),
            // A file system without locks: whoever uses one there has to see to it alone.
            Err(TryLockError::Error(error)) if error.kind() == ErrorKind::Unsupported => return Ok(()),
            Err(TryLockError::Error(error)) => return Err(error),
            Ok(()) => return Ok(()),
        }
    }
    note(&format!("waiting for {name}, which another process has locked\n"));
    wait(file)
}

/// Says whether a name still leads to a file that is open.
fn leads_to(name: &str, file: &File) -> io::Result<bool> {
    match fs::metadata(name) {
        Ok(about) => Ok(same(&about, &file.metadata()?)),
        Err(error) => Err(error),
    }
}
