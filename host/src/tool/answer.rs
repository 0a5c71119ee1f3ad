//! Commands and their answers in words.

use super::pool::Pool;
use super::words::Options;
use super::{Said, Stop};
use crate::command::{Answer, Command};
use crate::node::Pair;
use crate::refusal::words;

/// What an answer says to its command, and whether it is a no.
pub(super) fn spoken(command: &Command, answer: &Answer) -> (String, bool) {
    let text = match (command, answer) {
        (Command::Get { key }, Answer::Got(value)) => has_value(&Pair { key: *key, pointer: *value }),
        (Command::Put { key, value }, Answer::Absent) => format!("key {key} is new, with value {value}"),
        (Command::Put { key, value }, Answer::Replaced(old)) => format!("key {key} has value {value}, before {old}"),
        (Command::Delete { key }, Answer::Deleted(old)) => format!("key {key} is deleted, its value was {old}"),
        (Command::Get { key } | Command::Delete { key }, Answer::Absent) => {
            return (format!("key {key} is not there"), true);
        }
        (Command::Put { key, .. }, Answer::Refused(number)) => {
            return (format!("key {key} is not put: refused with {number}: {}", words(*number)), true);
        }
        (Command::Scan { low, high, .. }, Answer::Pairs(pairs)) => {
            let pairs: String = pairs.iter().map(|pair| format!("\n{},{}", pair.key, pair.pointer)).collect();
            format!("keys {low} to {high}:{}", if pairs.is_empty() { " none" } else { &pairs })
        }
        (Command::Ceiling { key }, Answer::Ceiling(pair)) if pair.key == *key => has_value(pair),
        (Command::Ceiling { key }, Answer::Ceiling(pair)) => format!("{}, the nearest above {key}", has_value(pair)),
        (Command::Ceiling { key }, Answer::Absent) => return (format!("no key is at or above {key}"), true),
        _ => return (format!("{answer:?} is no answer to {command:?}"), true),
    };
    (text, false)
}

fn has_value(pair: &Pair) -> String {
    format!("key {} has value {}", pair.key, pair.pointer)
}

/// Runs one command that changes the pool as a batch of its own, and says its answer and its charge.
pub(super) fn change(file: &str, options: &Options, command: Command) -> Result<Said, Stop> {
    one(Pool::open(file, options)?, command)
}

/// Runs one command that only looks, and says its answer and its charge.
pub(super) fn look(file: &str, options: &Options, command: Command) -> Result<Said, Stop> {
    one(Pool::look_or_charge(file, options)?, command)
}

fn one(mut pool: Pool<'_>, command: Command) -> Result<Said, Stop> {
    let answers = pool.batch(&[command])?;
    let [answer] = &answers[..] else {
        return Err(Stop::no(format!("{} answers to one command", answers.len())));
    };
    pool.save()?;
    let (text, no) = spoken(&command, answer);
    Ok(Said { text: format!("{text}\ncharge {}\n", pool.charge()), status: u8::from(no), ..Said::default() })
}
