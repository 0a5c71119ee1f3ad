//! Random commands that a pool's keys make likely to matter.

use std::collections::BTreeMap;

use super::style::CommandStyle;
use crate::command::Command;
use crate::layout::{MAX_BATCH_BYTES, MAX_SCAN_PAIRS, PANELS};
use crate::random::Random;
use crate::wire::{FIELD_HEAD, PAIR_BYTES, SCAN_BYTES};

/// Most commands of a batch, whatever they are, and most puts.
pub(super) const MAX_COMMANDS: usize = MAX_BATCH_BYTES / (FIELD_HEAD + SCAN_BYTES);
pub(super) const MAX_PUTS: usize = MAX_BATCH_BYTES / (FIELD_HEAD + PAIR_BYTES);

/// Chooses commands for a pool.
pub(super) struct Chooser<'a> {
    pub style: &'a CommandStyle,
    /// The pairs that the pool holds.
    pub map: &'a BTreeMap<u32, u32>,
    /// Puts chosen so far, for keys that ascend.
    pub puts: &'a mut u32,
    /// One put in so many is of a likely key.
    pub near: usize,
}

impl Chooser<'_> {
    /// Commands of a batch, among them a panel at least, unless the batch is empty.
    pub fn commands(&mut self, random: &mut Random) -> Vec<Command> {
        let count = match random.below(60) {
            0..=2 => 0,
            3 => MAX_COMMANDS,
            _ => random.between(1, self.style.longest),
        };
        let mut commands: Vec<Command> = (0..count).map(|_| self.command(random)).collect();
        if count > 0 {
            commands.insert(random.between(0, count), panel(random));
        }
        commands
    }

    fn command(&mut self, random: &mut Random) -> Command {
        if random.once_in(self.style.turns) {
            return panel(random);
        }
        let number = random.below(self.style.shares.iter().sum());
        match self.style.share_of(number) {
            Some(0) => Command::Get { key: self.likely_key(random) },
            Some(1) => {
                *self.puts += 1;
                let likely = random.once_in(self.near);
                let key = if likely { self.likely_key(random) } else { self.style.key(random, *self.puts) };
                Command::Put { key, value: self.style.value(random) }
            }
            Some(2) => Command::Delete { key: self.likely_key(random) },
            Some(3) => self.scan(random),
            _ => self.ceiling(random),
        }
    }

    fn scan(&self, random: &mut Random) -> Command {
        let (one, other) = (self.likely_key(random), self.likely_key(random));
        let (low, high) = if random.once_in(10) { (one, other) } else { (one.min(other), one.max(other)) };
        let any = random.between(1, MAX_SCAN_PAIRS);
        let most = random.pick(&[1, 2, 12, 13, 24, 25, any, MAX_SCAN_PAIRS]);
        match random.below(8) {
            0 => Command::Scan { low: 0, high: u32::MAX, most },
            1 => Command::Scan { low, high: low, most },
            _ => Command::Scan { low, high, most },
        }
    }

    /// A ceiling of a likely key, of the next one, of one above all that are there, or of the greatest there can be.
    fn ceiling(&self, random: &mut Random) -> Command {
        let likely = self.likely_key(random);
        let next = likely.saturating_add(1);
        let above_all = self.map.last_key_value().map_or(0, |(key, _)| key.saturating_add(1));
        Command::Ceiling { key: random.pick(&[likely, likely, likely, next, next, above_all, u32::MAX]) }
    }

    /// A key that is there, mostly, or one beside it.
    fn likely_key(&self, random: &mut Random) -> u32 {
        let at = random.next_u32() % (*self.puts + 2);
        let greatest = self.map.last_key_value().map_or(0, |(key, _)| *key);
        let near = match random.below(3) {
            0 => (random.next_u64() % (u64::from(greatest) + 1)) as u32,
            _ => self.style.key(random, at),
        };
        let there = self.map.range(near..).next().or_else(|| self.map.iter().next()).map(|(key, _)| *key);
        match (there, random.below(8)) {
            (Some(key), 0 | 1) => key.wrapping_add(1),
            (Some(key), 2..=6) => key,
            _ => near,
        }
    }
}

/// Any panel, but mostly the first or the last, so that it is often the current one already.
fn panel(random: &mut Random) -> Command {
    let any = random.below(PANELS);
    Command::Panel { panel: random.pick(&[0, PANELS - 1, any]) }
}
