//! A new file beside the one that it shall replace: a break leaves the old one or the new one.

use std::fs::{self, File, Metadata, OpenOptions};
use std::io::{self, ErrorKind, Write};
use std::os::unix::fs::{chown, MetadataExt, OpenOptionsExt};
use std::path::{Path, PathBuf};

use super::trouble;
use crate::tool::Stop;

/// The end of the name of such a file.
const END: &str = ".new";

/// A file that is written and has not its name yet; dropped without it, it goes.
pub(super) struct Beside<'a> {
    name: &'a str,
    target: &'a Path,
    path: PathBuf,
    file: Option<File>,
}

impl<'a> Beside<'a> {
    /// Makes a file that is not there; one that has come meanwhile is kept.
    pub fn create(name: &str, bytes: &[u8]) -> Result<(), Stop> {
        let beside = Beside::filled(name, Path::new(name), bytes, None)?;
        match fs::hard_link(&beside.path, name) {
            Ok(()) => {
                sync_folder(beside.target);
                Ok(())
            }
            Err(error) if error.kind() == ErrorKind::AlreadyExists => {
                Err(Stop::wrong(format!("{name} has come meanwhile, by somebody else, and is left as it is")))
            }
            // A file system without links.
            Err(_) => beside.replace().map(drop),
        }
    }

    /// Writes a file for the place of another, with the owner and the mode of the old one.
    pub fn filled(name: &'a str, target: &'a Path, bytes: &[u8], old: Option<&Metadata>) -> Result<Beside<'a>, Stop> {
        clear(target);
        let path = beside(target, std::process::id());
        let mode = if old.is_some() { 0o600 } else { 0o666 };
        let made = OpenOptions::new().write(true).read(true).create_new(true).mode(mode).open(&path);
        let file = made.map_err(|error| Stop::wrong(format!("{name}: no new file can be made beside it: {error}")))?;
        let mut made = Beside { name, target, path, file: None };
        if let Some(old) = old {
            made.like(&file, old)?;
        }
        made.file = Some(fill(file, bytes).map_err(|error| trouble(name, error))?);
        Ok(made)
    }

    /// Gives the file the owner and the mode of the old one.
    fn like(&self, file: &File, old: &Metadata) -> Result<(), Stop> {
        let wrong = |error| trouble(self.name, error);
        let new = file.metadata().map_err(wrong)?;
        if (new.uid(), new.gid()) != (old.uid(), old.gid()) {
            let (owner, group) = (old.uid(), old.gid());
            let lost = |error| {
                Stop::wrong(format!(
                    "{}: a new file cannot belong to user {owner} and group {group}: {error}",
                    self.name
                ))
            };
            chown(&self.path, Some(owner), Some(group)).map_err(lost)?;
        }
        // After the owner, whose change takes away some of the mode.
        file.set_permissions(old.permissions()).map_err(wrong)
    }

    /// Puts the file in the place of the other, and gives it, locked.
    pub fn replace(mut self) -> Result<File, Stop> {
        fs::rename(&self.path, self.target).map_err(|error| trouble(self.name, error))?;
        sync_folder(self.target);
        self.file.take().ok_or_else(|| Stop::wrong(format!("{}: nothing was written", self.name)))
    }
}

impl Drop for Beside<'_> {
    fn drop(&mut self) {
        // Behind a rename nothing has this name any more.
        let _ = fs::remove_file(&self.path);
    }
}

/// Writes a new file to its end; it is locked, so that whoever finds it under its name at last finds it held.
fn fill(mut file: File, bytes: &[u8]) -> io::Result<File> {
    match file.lock() {
        Err(error) if error.kind() != ErrorKind::Unsupported => return Err(error),
        _ => {}
    }
    file.write_all(bytes)?;
    file.sync_all()?;
    Ok(file)
}

/// Makes a new name last; where a folder cannot be synced, the file system has its own way.
fn sync_folder(target: &Path) {
    let _ = File::open(folder(target)).and_then(|folder| folder.sync_all());
}

/// The folder that a file is in.
fn folder(target: &Path) -> &Path {
    target.parent().filter(|folder| !folder.as_os_str().is_empty()).unwrap_or(Path::new("."))
}

/// A name in the same folder that no other process takes.
fn beside(target: &Path, process: u32) -> PathBuf {
    let name = target.file_name().unwrap_or_default().to_string_lossy();
    target.with_file_name(format!(".{name}.{process}{END}"))
}

/// Removes what processes that were killed have left beside a file.
fn clear(target: &Path) {
    let name = target.file_name().unwrap_or_default().to_string_lossy();
    let start = format!(".{name}.");
    let Ok(entries) = fs::read_dir(folder(target)) else { return };
    for entry in entries.flatten() {
        let other = entry.file_name();
        let process = other.to_str().and_then(|other| other.strip_prefix(&start)?.strip_suffix(END)?.parse().ok());
        let is_file = entry.file_type().is_ok_and(|kind| kind.is_file());
        if is_file && process.is_some_and(|process| is_gone(process, &entry.path())) {
            let _ = fs::remove_file(entry.path());
        }
    }
}

/// Says whether the process is gone that was writing a file. Its number may be taken again, by this one too, and a
/// folder may be shared with a machine that counts otherwise: so nobody may have the file locked either.
fn is_gone(process: u32, path: &Path) -> bool {
    let lives = process != std::process::id() && lives(process);
    !lives && File::open(path).is_ok_and(|file| file.try_lock().is_ok())
}

/// Says whether a process runs: one that was killed is listed until its parent has asked for it, and runs no more.
fn lives(process: u32) -> bool {
    let listed = fs::read_to_string(format!("/proc/{process}/stat")).unwrap_or_default();
    // Its name comes first, in brackets, and may hold anything; then its state.
    listed.rsplit_once(") ").is_some_and(|(_, state)| !state.starts_with(['Z', 'X']))
}
