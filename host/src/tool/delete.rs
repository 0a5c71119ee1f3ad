//! `delete`: a key goes.

use super::pool::CALL_OPTIONS;
use super::words::{Options, Words};
use super::{answer, Said, Stop, Verb};
use crate::command::Command;

pub(super) const VERB: Verb = Verb {
    name: "delete",
    words: "FILE KEY",
    about: "removes a key, and tells the value it had",
    more: "Exit status 1 if the key is not there.",
    options: CALL_OPTIONS,
    run,
};

fn run(words: &mut Words<'_>, options: &Options) -> Result<Said, Stop> {
    let (file, key) = (words.word("a file")?, words.number("a key")?);
    words.end()?;
    answer::change(file, options, Command::Delete { key })
}
