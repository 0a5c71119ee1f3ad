//! `get`: the value of a key.

use super::pool::LOOK_OPTIONS;
use super::words::{Options, Words};
use super::{answer, Said, Stop, Verb};
use crate::command::Command;

pub(super) const VERB: Verb = Verb {
    name: "get",
    words: "FILE KEY",
    about: "the value of a key",
    more: "The file is left as it is, and the charge is what the book would count.\n\
           Exit status 1 if the key is not there.",
    options: LOOK_OPTIONS,
    run,
};

fn run(words: &mut Words<'_>, options: &Options) -> Result<Said, Stop> {
    let (file, key) = (words.word("a file")?, words.number("a key")?);
    words.end()?;
    answer::look(file, options, Command::Get { key })
}
