//! The longest calls known: scans and ceilings over leaves that deletes have emptied.

use super::by_turns::{cells, pool_after, shortest};
use super::emptied::EMPTYINGS;
use super::{Rows, Setup};
use crate::both::Call;
use crate::command::{encode, Command};
use crate::input::Input;
use crate::layout::{MAX_BATCH_BYTES, MAX_BLOCKS, MAX_SCAN_PAIRS};
use crate::markdown::{grouped, head};

/// Leaves of the pool: with the branches above them they leave hardly an id.
const LEAVES: usize = 566;
/// Commands that read every leaf, by name: a scan of all keys, and a ceiling, of which more fit a batch.
const READERS: [(&str, Command); 2] = [
    ("scans", Command::Scan { low: 0, high: u32::MAX, most: MAX_SCAN_PAIRS }),
    ("ceilings", Command::Ceiling { key: 0 }),
];
/// Such a call is so much longer than others that it is made as many times less often.
const ROUNDS_DIVISOR: usize = 50;

pub fn rows(setup: &Setup) -> Rows {
    let mut names = Vec::new();
    let mut calls = Vec::new();
    for emptying in &EMPTYINGS {
        let place = format!("over {LEAVES} leaves emptied {}", emptying.name);
        (setup.say)(&format!("building: {place}"));
        let pool = emptying.pool(MAX_BLOCKS, LEAVES)?;
        for (name, call) in of_pool(&pool) {
            pool_after(call.clone())?;
            names.push(format!("{name} {place}"));
            calls.push(call);
        }
    }
    let times = shortest(setup, &calls, setup.rounds.div_ceil(ROUNDS_DIVISOR))?;
    let milliseconds = times.into_iter().map(|times| times.map(|time| time.as_secs_f64() * 1e3));
    let row = |(name, times)| std::iter::once(name).chain(cells(times, 0)).collect();
    let rows = names.into_iter().zip(milliseconds).map(row);
    Ok(std::iter::once(head(&["call", "proved", "second", "ratio"])).chain(rows).collect())
}

/// A batch of each reader, and a desk of the last.
fn of_pool(pool: &[u8]) -> Vec<(String, Call)> {
    let named = |name: &str, count: usize| format!("{} {name}", grouped(count as u128));
    let batch = |(name, command): (&str, Command)| {
        let commands = as_many_as_fit(&[command]);
        (named(name, commands.len()), Call::new(pool.to_vec(), &commands))
    };
    let (name, command) = READERS[1];
    let turns = vec![command; as_many_as_fit(&[Command::Panel { panel: 0 }, command]).len() / 2];
    let desk = Call { input: Input::in_queues(&turns), ..Call::new(pool.to_vec(), &turns) };
    READERS.into_iter().map(batch).chain([(named(name, turns.len()) + " at a desk", desk)]).collect()
}

/// As many of some commands as a batch holds.
fn as_many_as_fit(commands: &[Command]) -> Vec<Command> {
    commands.repeat(MAX_BATCH_BYTES / encode(commands).len())
}

#[cfg(test)]
mod tests {
    use super::*;

    #[test]
    fn a_batch_holds_no_command_more() {
        let counts = READERS.map(|(_, command)| {
            let commands = as_many_as_fit(&[command]);
            let length = encode(&commands).len();
            assert!(length <= MAX_BATCH_BYTES && length + encode(&[command]).len() > MAX_BATCH_BYTES);
            commands.len()
        });
        assert_eq!(counts, [2_520, 4_681]);
    }
}
