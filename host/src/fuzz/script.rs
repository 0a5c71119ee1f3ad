//! A random pool with random batches for it, for what is measured and not compared.

use super::checked_pool::CheckedPool;
use super::Tally;
use crate::command::Command;
use crate::random::Random;

/// A prepared or a foreign pool, and batches to run on it one after another.
pub struct Script {
    pub pool: Vec<u8>,
    pub batches: Vec<Vec<Command>>,
}

impl Script {
    /// A script of so many batches.
    pub fn random(random: &mut Random, batches: usize) -> Result<Script, String> {
        let tally = &mut Tally::default();
        let prepared = random.once_in(2);
        let mut checked =
            if prepared { CheckedPool::prepared(random, tally)? } else { CheckedPool::foreign(random, tally) };
        let style = checked.random_style(random);
        let batches = (0..batches).map(|_| checked.random_commands(random, &style)).collect();
        Ok(Script { pool: checked.pool().to_vec(), batches })
    }
}
