//! `ceiling`: the key, or the nearest above it.

use super::pool::LOOK_OPTIONS;
use super::words::{Options, Words};
use super::{answer, Said, Stop, Verb};
use crate::command::Command;

pub(super) const VERB: Verb = Verb {
    name: "ceiling",
    words: "FILE KEY",
    about: "the key, or the nearest above it, with its value",
    more:
        "It reads as a scan for one pair from KEY on does. The file is left as it is, and the charge is what the book\n\
           would count. Exit status 1 if no key is at or above.",
    options: LOOK_OPTIONS,
    run,
};

fn run(words: &mut Words<'_>, options: &Options) -> Result<Said, Stop> {
    let (file, key) = (words.word("a file")?, words.number("a key")?);
    words.end()?;
    answer::look(file, options, Command::Ceiling { key })
}
