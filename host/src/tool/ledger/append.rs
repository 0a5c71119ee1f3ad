//! A line more at a ledger's end.

use std::fs::{File, OpenOptions};
use std::io::{self, BufRead, BufReader, Read, Seek, SeekFrom, Write};

use super::line::{heading, Line};
use crate::calendar::{now, utc};
use crate::layout::PANELS;
use crate::tool::words::Options;
use crate::tool::Stop;

/// Where accepted calls are noted, if the options name a ledger.
pub(in crate::tool) struct Ledger<'a> {
    open: Option<(&'a str, File)>,
}

impl<'a> Ledger<'a> {
    /// Opens the ledger of the options before a call is made: one that cannot be written stops it.
    ///
    /// A dry call is noted nowhere.
    pub fn of(options: &'a Options) -> Result<Ledger<'a>, Stop> {
        let Some(name) = options.ledger.as_deref().filter(|_| !options.dry) else {
            return Ok(Ledger { open: None });
        };
        let file = opened(name).map_err(|error| Stop::wrong(format!("{name}: {error}")))?;
        Ok(Ledger { open: Some((name, file)) })
    }

    /// Notes an accepted call, which is done by now.
    pub fn note(self, pool: &str, call: &str, charges: &[u64; PANELS]) -> Result<(), Stop> {
        let Some((name, mut file)) = self.open else { return Ok(()) };
        let line = Line { time: utc(now()), pool: pool.to_string(), call: call.to_string(), charges: *charges };
        let missing = |error| Stop::wrong(format!("{name}: {error}; the call is done, but its charges are not noted"));
        append(&mut file, &line.csv()).map_err(missing)
    }
}

/// Opens a ledger, or begins one; another file stays as it is.
fn opened(name: &str) -> io::Result<File> {
    let mut file = OpenOptions::new().read(true).append(true).create(true).open(name)?;
    if file.metadata()?.len() == 0 {
        append(&mut file, &heading())?;
    } else if !begins_well(&mut file)? {
        return Err(io::Error::other("no ledger: its first line is neither a heading nor a call"));
    }
    Ok(file)
}

/// The heading comes first, or, where two began the ledger at once, a call of the other.
fn begins_well(file: &mut File) -> io::Result<bool> {
    let mut first = Vec::new();
    // No line of a ledger is longer; of another file no more is read.
    BufReader::new(file).take(1 << 16).read_until(b'\n', &mut first)?;
    let first = String::from_utf8_lossy(&first);
    Ok(first == heading() || Line::parse(first.trim_end()).is_ok())
}

/// Writes a line at the end in one write, so that two processes do not mix theirs.
fn append(file: &mut File, line: &str) -> io::Result<()> {
    let line = if ends_in_a_line(file)? { line.to_string() } else { format!("\n{line}") };
    match file.write(line.as_bytes())? {
        written if written == line.len() => Ok(()),
        written => Err(io::Error::other(format!("{written} of {} bytes written", line.len()))),
    }
}

/// Whether the last line is whole: one that a break cut off must not take the next one with it.
fn ends_in_a_line(file: &mut File) -> io::Result<bool> {
    if file.seek(SeekFrom::End(0))? == 0 {
        return Ok(true);
    }
    let mut last = [0];
    file.seek(SeekFrom::End(-1))?;
    file.read_exact(&mut last)?;
    Ok(last == *b"\n")
}
