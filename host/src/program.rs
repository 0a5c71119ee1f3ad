//! What all programs share: their words, `--help` and `--version`, and one meaning of an exit status.

use std::fmt;
use std::process::ExitCode;

use crate::books;
use crate::output::{note, say, Reader};

/// What an exit status means, for every help.
pub const STATUS: &str = "Exit status: 0 done; 1 the answer is no: refused, absent, faulty, different or failed;\n\
                          2 not understood, or a file, a book or standard output that cannot be used.\n";

/// Why a program, or a verb, ends without having done what it was asked.
#[derive(Clone, PartialEq, Eq, Debug)]
pub struct Stop {
    /// The exit status.
    pub status: u8,
    pub why: String,
}

impl Stop {
    /// The answer is no.
    pub fn no(why: impl Into<String>) -> Stop {
        Stop { status: 1, why: why.into() }
    }

    /// The request is not understood, or something that it needs cannot be used.
    pub fn wrong(why: impl Into<String>) -> Stop {
        Stop { status: 2, why: why.into() }
    }
}

impl fmt::Display for Stop {
    fn fmt(&self, out: &mut fmt::Formatter<'_>) -> fmt::Result {
        out.write_str(&self.why)
    }
}

/// Runs a program with its words, and answers `--help` and `--version` itself.
pub fn run(name: &str, usage: &str, work: impl FnOnce(&[String]) -> Result<(), Stop>) -> ExitCode {
    let done = words().and_then(|words| match words {
        words if asks(&words, &["--help", "-h"]) => tell(&format!("{}\n\n{STATUS}", usage.trim_end())).map(drop),
        words if asks(&words, &["--version"]) => tell(&version(name)).map(drop),
        words => work(&words),
    });
    match done {
        Ok(()) => ExitCode::SUCCESS,
        Err(stop) => ended(name, &stop),
    }
}

/// Says why a program ends, and gives its exit status.
pub fn ended(name: &str, stop: &Stop) -> ExitCode {
    note(&format!("{name}: {stop}\n"));
    ExitCode::from(stop.status)
}

/// The words behind the name of the program.
pub fn words() -> Result<Vec<String>, Stop> {
    let word = |word: std::ffi::OsString| {
        word.into_string().map_err(|word| Stop::wrong(format!("a word that is not UTF-8: {word:?}")))
    };
    std::env::args_os().skip(1).map(word).collect()
}

/// Writes text to standard output.
pub fn tell(text: &str) -> Result<Reader, Stop> {
    say(text).map_err(Stop::wrong)
}

/// The name and number of a program, and the books that it was built with.
pub fn version(name: &str) -> String {
    let books = match books::by_name("proved") {
        Ok(_) => "the proved book and the second one",
        Err(_) => "the second book alone",
    };
    format!("{name} {} with {books}\n", env!("CARGO_PKG_VERSION"))
}

fn asks(words: &[String], options: &[&str]) -> bool {
    words.iter().any(|word| options.contains(&word.as_str()))
}
