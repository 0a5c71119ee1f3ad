//! What a command takes at a desk, beside the same command in a batch.

use super::aged::{Aged, Mix};
use super::by_turns::{cells, pool_after, shortest};
use super::times::{command_times, COMMANDS};
use super::{Rows, Setup};
use crate::both::Call;
use crate::command::Command;
use crate::input::Input;
use crate::layout::{MAX_BLOCKS, PANELS};
use crate::markdown::head;

/// A way to hand in commands, by its name.
type Way = (&'static str, fn(&[Command]) -> Input);

/// The ways: all do the same commands in the same order.
const WAYS: [Way; 3] = [
    ("in a batch", Input::batch),
    ("in a batch, a panel named before each", |commands| Input::batch(&by_turns(commands))),
    ("at a desk of 16 queues", Input::in_queues),
];

pub fn rows(setup: &Setup) -> Rows {
    (setup.say)("building a pool for a desk");
    let aged = Aged::new(MAX_BLOCKS, Mix::Log)?;
    let mut names = Vec::new();
    let mut calls = vec![Call::new(aged.pool.clone(), &[])];
    for (kind, commands) in [("get", aged.gets(COMMANDS)), ("put", aged.puts(COMMANDS))] {
        let of_way = |input: fn(&[Command]) -> Input| Call {
            input: input(&commands),
            ..Call::new(aged.pool.clone(), &commands)
        };
        names.extend(WAYS.map(|(way, _)| format!("{kind} {way}")));
        calls.extend(same_pool_after(WAYS.map(|(_, input)| of_way(input)))?);
    }
    let times = shortest(setup, &calls, setup.rounds)?;
    let rows = names.into_iter().zip(&times[1..]);
    let row = |(name, &all)| std::iter::once(name).chain(cells(command_times(all, times[0]), 2)).collect();
    Ok(std::iter::once(head(&["command", "proved", "second", "ratio"])).chain(rows.map(row)).collect())
}

/// The commands with a panel named before each, as a desk of sixteen queues joins them.
fn by_turns(commands: &[Command]) -> Vec<Command> {
    let panels = (0..PANELS).cycle();
    commands.iter().zip(panels).flat_map(|(&command, panel)| [Command::Panel { panel }, command]).collect()
}

/// The calls, which must all leave the same pool.
fn same_pool_after<const N: usize>(calls: [Call; N]) -> Result<[Call; N], String> {
    let pools: Result<Vec<Vec<u8>>, String> = calls.iter().cloned().map(pool_after).collect();
    match pools?.windows(2).all(|pair| pair[0] == pair[1]) {
        true => Ok(calls),
        false => Err("calls of the same commands leave different pools".to_string()),
    }
}

#[cfg(test)]
mod tests {
    use super::*;
    use crate::metered::Metered;
    use crate::workload::LOG_ONLY;

    #[test]
    fn the_ways_are_of_the_same_commands() {
        let pool = Metered::new(MAX_BLOCKS, LOG_ONLY).expect("a pool").pool;
        let puts: Vec<Command> = (0..COMMANDS as u32).map(|key| Command::Put { key, value: key }).collect();
        let call = |input: Input, count: usize| Call { input, ..Call::new(pool.clone(), &puts[..count]) };
        let of_ways = WAYS.map(|(_, input)| call(input(&puts), COMMANDS));
        assert!(same_pool_after(of_ways).is_ok());
        let others = [call(Input::batch(&puts[..7]), 7), call(Input::batch(&puts[..8]), 8)];
        assert!(same_pool_after(others).is_err_and(|why| why.contains("different pools")));
    }
}
