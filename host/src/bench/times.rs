//! What a get, a put and an empty batch take, by the size of the pool and the modes of its nodes.

use super::aged::{Aged, Mix, Modes, MIXES};
use super::by_turns::{cells, pool_after, shortest, Times};
use super::{Rows, Setup};
use crate::both::Call;
use crate::layout::{MAX_BLOCKS, MIN_BLOCKS};
use crate::markdown::head;

/// Blocks of the pools.
const BLOCKS: [usize; 3] = [MIN_BLOCKS, 16, MAX_BLOCKS];
/// Commands of a batch that one command's time is taken from.
pub const COMMANDS: usize = 2_000;

/// All pools are built first, so that the rounds of each are spread over the whole time.
pub fn rows(setup: &Setup) -> Rows {
    let mut names = Vec::new();
    let mut calls = Vec::new();
    for (blocks, mix) in BLOCKS.into_iter().flat_map(|blocks| MIXES.map(|mix| (blocks, mix))) {
        (setup.say)(&format!("building {blocks} blocks, {}", mix.name()));
        let aged = Aged::new(blocks, mix)?;
        let Modes { log, disk } = aged.modes;
        names.push(vec![blocks.to_string(), mix.name().to_string(), format!("{log}, {disk}")]);
        calls.extend(audited_batches(&aged, mix)?);
    }
    let times = shortest(setup, &calls, setup.rounds)?;
    let (by_pool, _) = times.as_chunks();
    let named = names.into_iter().zip(by_pool).map(|(name, times)| [name, row(times)].concat());
    Ok(std::iter::once(header()).chain(named).collect())
}

fn header() -> Vec<String> {
    let books = |what: &str| [format!("{what}: proved"), "second".to_string(), "ratio".to_string()];
    let names = head(&["blocks", "modes", "nodes in log mode, on node pages"]);
    names.into_iter().chain(["get", "put", "empty batch"].into_iter().flat_map(books)).collect()
}

/// The cells of a pool's times: those of an empty batch, of gets and of puts.
fn row(&[empty, gets, puts]: &[Times; 3]) -> Vec<String> {
    let all = [
        cells(command_times(gets, empty), 2),
        cells(command_times(puts, empty), 2),
        cells(empty.map(|time| time.as_secs_f64() * 1e6), 0),
    ];
    all.concat()
}

/// Microseconds of one command: those of a batch of them, less an empty batch, divided.
pub fn command_times(all: Times, empty: Times) -> [f64; 2] {
    let one = |book: usize| (all[book].as_secs_f64() - empty[book].as_secs_f64()) * 1e6 / COMMANDS as f64;
    [one(0), one(1)]
}

/// An empty batch, one of gets and one of puts, on an aged pool.
pub fn batches(aged: &Aged) -> [Call; 3] {
    [Vec::new(), aged.gets(COMMANDS), aged.puts(COMMANDS)].map(|commands| Call::new(aged.pool.clone(), &commands))
}

/// The batches, none of which may leave another mix of modes.
fn audited_batches(aged: &Aged, mix: Mix) -> Result<[Call; 3], String> {
    let batches = batches(aged);
    for call in &batches {
        mix.audit(&pool_after(call.clone())?)?;
    }
    Ok(batches)
}

#[cfg(test)]
mod tests {
    use super::*;
    use std::time::Duration;

    #[test]
    fn a_command_takes_its_part_of_a_batch() {
        let micros = |proved, second| [proved, second].map(Duration::from_micros);
        let row = row(&[micros(1_000, 500), micros(5_000, 1_500), micros(9_000, 2_500)]);
        assert_eq!(row, ["2.00", "0.50", "4.00", "4.00", "1.00", "4.00", "1000", "500", "2.00"]);
        assert_eq!(header().len(), 3 + row.len());
    }
}
