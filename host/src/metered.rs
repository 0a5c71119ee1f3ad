//! The second book on a pool of its own, metered: what workloads and measurements build their pools with.

use crate::account::Tariff;
use crate::book;
use crate::command::{answer_room, encode, split_answers, Answer, Command};
use crate::layout::{table_bytes, BLANK, BLOCK_BYTES};
use crate::meter::{Meter, Totals};
use crate::mount::mount;
use crate::observe::Unobserved;
use crate::tree::IDS_USED_UP;

/// Commands of a batch: a batch closes, and closing writes pages.
pub const BATCH: usize = 2_000;

/// A pool, and what was measured of it.
pub struct Metered {
    pub pool: Vec<u8>,
    pub meter: Meter,
}

impl Metered {
    /// A prepared pool.
    pub fn new(blocks: usize, numbers: [u32; 8]) -> Result<Metered, String> {
        let tariff = Tariff::from_numbers(numbers).ok_or_else(|| format!("the tariff {numbers:?} is out of range"))?;
        let mut pool = vec![BLANK; blocks * BLOCK_BYTES];
        match book::prepare(&mut pool, numbers, &mut Unobserved) {
            0 => Ok(Metered { pool, meter: Meter::new(tariff, blocks) }),
            number => Err(format!("prepare was refused with {number}")),
        }
    }

    /// Runs commands in batches; a workload must fit its pool.
    pub fn run(&mut self, commands: &[Command]) -> Result<(), String> {
        let refused = encode_refused();
        let mut table = vec![0; table_bytes(self.pool.len())];
        for batch in commands.chunks(BATCH) {
            let mut answers = vec![0; answer_room(batch)];
            let outcome = book::batch(&mut self.pool, &mut table, &encode(batch), &mut answers, &mut self.meter);
            if outcome.number != 0 {
                return Err(format!("a batch was refused with {}", outcome.number));
            }
            let answers = &answers[..outcome.length];
            let full = split_answers(answers).is_none_or(|pieces| pieces.contains(&&refused[..]));
            if full {
                return Err("the pool is too small for the workload".to_string());
            }
        }
        Ok(())
    }

    /// Forgets what was measured: from here on everybody begins with the modes and scores that the nodes have now.
    pub fn measure_anew(&mut self) -> Result<(), String> {
        self.meter = Meter::of_pool(&mount(&self.pool).map_err(|fault| fault.to_string())?);
        Ok(())
    }

    /// The totals of commands on a fresh pool.
    pub fn measured(blocks: usize, tariff: [u32; 8], commands: &[Command]) -> Result<Totals, String> {
        let mut metered = Metered::new(blocks, tariff)?;
        metered.run(commands)?;
        Ok(metered.meter.totals())
    }
}

fn encode_refused() -> Vec<u8> {
    let mut out = Vec::new();
    Answer::Refused(IDS_USED_UP).encode(&mut out);
    out
}
