//! What the tool says of itself.

use super::lines::HOW;
use super::words::{Told, OPTIONS};
use super::{dump, named, Said, Stop, Verb, VERBS};
use crate::program::STATUS;

/// All verbs, a line each.
pub(super) fn all() -> String {
    let mut out =
        "usage: wallbook VERB FILE ..\n\nFILE is a pool; keys and values are decimal, or hexadecimal behind 0x.\n\n"
            .to_string();
    for verb in VERBS {
        out.push_str(&format!("  {:<8} {:<28} {}\n", verb.name, verb.words, verb.about));
    }
    out.push_str("  help     [VERB]                       this, or all of one verb\n\n");
    out.push_str(STATUS);
    out
}

/// One verb in full.
pub(super) fn one(verb: &Verb) -> String {
    let mut out = format!("usage: wallbook {} {}\n\n{}: {}.\n", verb.name, verb.words, verb.name, verb.about);
    if !verb.more.is_empty() {
        out.push_str(&format!("\n{}\n", verb.more));
    }
    if verb.options.contains(&"--from") {
        out.push_str(&format!("\n{HOW}\n"));
    }
    if verb.options.contains(&"--spare") {
        out.push_str(&format!("\n{}\n", dump::HOW));
    }
    let known = OPTIONS.iter().filter(|(name, ..)| verb.options.contains(name));
    let line = |(name, word, what): &Told| format!("  {:<12} {what}\n", format!("{name} {word}"));
    let lines: String = known.map(line).collect();
    if !lines.is_empty() {
        out.push_str(&format!("\n{lines}"));
    }
    out
}

/// Answers `help` and `help VERB`.
pub(super) fn about(words: &[&str]) -> Result<Said, Stop> {
    match words {
        [] => Ok(Said::text(all())),
        [name] => Ok(Said::text(one(named(name)?))),
        [_, more, ..] => Err(Stop::wrong(format!("help: {more:?} is too much"))),
    }
}
