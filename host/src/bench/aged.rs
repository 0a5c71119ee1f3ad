//! Pools as long use leaves them, with their nodes in the modes that a measurement wants.

use crate::account::Mode;
use crate::command::Command;
use crate::layout::node_limit;
use crate::metered::Metered;
use crate::mount::mount;
use crate::random::Random;
use crate::workload::{build_with_reads, Stream, DISK_ONLY, LOG_ONLY};

/// Keys for each node of the limit: random ones then take about five ids of six.
const KEYS_PER_NODE: usize = 13;
/// Erases for each block after the build until a pool is aged.
const ERASES_PER_BLOCK: u64 = 2;

/// The modes of a pool's nodes.
#[derive(Clone, Copy, PartialEq, Eq, Debug)]
pub enum Mix {
    Log,
    Mixed,
    Disk,
}

/// All mixes.
pub const MIXES: [Mix; 3] = [Mix::Log, Mix::Mixed, Mix::Disk];

/// Document 01's worked tariff, but that a node switches after some 500 reads or 1,000 puts and not after three.
const SELDOM: [u32; 8] = [3, 1, 2, 1, 4, 4, 500, 500];
/// Reads of each key that bring a leaf of twelve, the fewest after a split, from log to disk under that tariff.
const READS_TO_SWITCH: usize = 42;

/// How many nodes are in each mode.
#[derive(Clone, Copy, PartialEq, Eq, Debug)]
pub struct Modes {
    pub log: usize,
    pub disk: usize,
}

impl Mix {
    pub fn name(self) -> &'static str {
        match self {
            Mix::Log => "all in log mode",
            Mix::Mixed => "mixed",
            Mix::Disk => "all on node pages",
        }
    }

    /// A tariff under which the mix comes about: no node leaves log mode, some do, or each at its first request.
    fn tariff(self) -> [u32; 8] {
        match self {
            Mix::Log => LOG_ONLY,
            Mix::Mixed => SELDOM,
            Mix::Disk => DISK_ONLY,
        }
    }

    /// The modes of a pool's nodes, which must be this mix; a mixed one has a quarter in each mode at least.
    pub fn audit(self, pool: &[u8]) -> Result<Modes, String> {
        let rows = mount(pool).map_err(|fault| format!("the pool is refused with {fault}"))?.rows;
        let disk = rows.iter().filter(|row| row.account.mode == Mode::Disk).count();
        let modes = Modes { log: rows.len() - disk, disk };
        let as_named = match self {
            Mix::Log => modes.disk == 0,
            Mix::Mixed => 4 * modes.log.min(modes.disk) >= rows.len(),
            Mix::Disk => modes.log == 0,
        };
        match as_named {
            true => Ok(modes),
            false => Err(format!("a pool to be {} has {modes:?}", self.name())),
        }
    }
}

/// An aged pool, and its keys in no order.
pub struct Aged {
    pub pool: Vec<u8>,
    pub keys: Vec<u32>,
    pub modes: Modes,
}

impl Aged {
    pub fn new(blocks: usize, mix: Mix) -> Result<Aged, String> {
        let mut keys = Stream::Random.keys(KEYS_PER_NODE * node_limit(blocks));
        let mut metered = Metered::new(blocks, mix.tariff())?;
        metered.run(&build_with_reads(&keys, 0))?;
        overwrite(&mut metered, &mut keys, ERASES_PER_BLOCK * blocks as u64)?;
        if mix == Mix::Mixed {
            metered.run(&reads_of_lower_half(&keys))?;
        }
        let modes = mix.audit(&metered.pool)?;
        Ok(Aged { pool: metered.pool, keys, modes })
    }

    /// So many gets of random keys that are there.
    pub fn gets(&self, count: usize) -> Vec<Command> {
        let mut random = Random::new(1);
        (0..count).map(|_| Command::Get { key: random.pick(&self.keys) }).collect()
    }

    /// So many puts of random keys that are there.
    pub fn puts(&self, count: usize) -> Vec<Command> {
        let mut random = Random::new(2);
        let keys: Vec<u32> = (0..count).map(|_| random.pick(&self.keys)).collect();
        puts(&keys)
    }
}

/// Puts all keys in random orders until so many blocks were erased.
fn overwrite(metered: &mut Metered, keys: &mut [u32], erases: u64) -> Result<(), String> {
    let mut random = Random::new(3);
    metered.measure_anew()?;
    while metered.meter.totals().erase_spread().0 < erases {
        random.shuffle(keys);
        metered.run(&puts(keys))?;
    }
    Ok(())
}

fn puts(keys: &[u32]) -> Vec<Command> {
    keys.iter().zip(0..).map(|(&key, value)| Command::Put { key, value }).collect()
}

/// Gets of each key in the lower half, often enough for their leaves to go to disk.
fn reads_of_lower_half(keys: &[u32]) -> Vec<Command> {
    let lower = keys.iter().filter(|&&key| key < 1 << 31);
    lower.flat_map(|&key| [Command::Get { key }; READS_TO_SWITCH]).collect()
}

#[cfg(test)]
mod tests {
    use super::*;
    use crate::layout::MIN_BLOCKS;

    #[test]
    fn an_aged_pool_has_the_modes_of_its_name_and_no_others() {
        for mix in MIXES {
            let aged = Aged::new(MIN_BLOCKS, mix).expect("a pool");
            let passes = MIXES.map(|other| other.audit(&aged.pool) == Ok(aged.modes));
            assert_eq!(passes, MIXES.map(|other| other == mix), "{mix:?}: {:?}", aged.modes);
            assert_eq!(aged.keys.len(), KEYS_PER_NODE * node_limit(MIN_BLOCKS));
        }
    }

    #[test]
    fn a_pool_that_does_not_open_has_no_mix() {
        let why = Mix::Log.audit(&[0; 3]).expect_err("no pool");
        assert!(why.starts_with("the pool is refused with 1"), "{why}");
    }
}
