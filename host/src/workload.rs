//! Devices and streams of the source papers, and tariffs that keep all nodes in one mode.

use crate::command::Command;
use crate::layout::LOG_PAGE_ENTRIES;
use crate::random::Random;

/// What reading and writing a page costs on a device of the papers.
#[derive(Clone, Copy, Debug)]
pub struct Device {
    pub name: &'static str,
    /// The unit of the two costs.
    pub unit: &'static str,
    pub read: u32,
    pub write: u32,
}

/// Flash chip, compact flash, SD card and Mica2 chip of source 000; the small-block chip of 002; the device of 003.
pub const FLASHCHIP: Device = Device { name: "FLASHCHIP", unit: "10 nJ", read: 74, write: 990 };
pub const CAPSULE: Device = Device { name: "CAPSULE", unit: "10 nJ", read: 5783, write: 7379 };
pub const CF: Device = Device { name: "CF", unit: "uJ", read: 2970, write: 6220 };
pub const SD: Device = Device { name: "SD", unit: "uJ", read: 109, write: 22292 };
pub const SLC: Device = Device { name: "SLC small block", unit: "us", read: 348, write: 909 };
pub const SOURCE_003: Device = Device { name: "source 003's", unit: "uJ", read: 24, write: 763 };

/// The devices that tariffs are made for.
pub const DEVICES: [Device; 6] = [FLASHCHIP, CAPSULE, CF, SD, SLC, SOURCE_003];

/// Parts of a page that costs are counted in, so that an entry's cost is whole.
const PART: u32 = LOG_PAGE_ENTRIES as u32;

impl Device {
    /// The tariff: a log node is three pages to read, an edit one entry of 27, a rewrite 13 entries; a switch
    /// to disk reads three pages and writes one, a switch to log reads one and writes 25 entries.
    pub fn tariff(&self) -> [u32; 8] {
        let (read, write) = (self.read, self.write);
        [
            3 * PART * read,
            write,
            13 * write,
            PART * read,
            PART * write,
            PART * write,
            3 * PART * read + PART * write,
            PART * read + 25 * write,
        ]
    }
}

/// A tariff that stays in log mode, and one that moves every node to disk at its first request.
pub const LOG_ONLY: [u32; 8] = [0, 0, 0, 0, 0, 0, 1, 1];
pub const DISK_ONLY: [u32; 8] = [2, 2, 2, 0, 0, 0, 1, 1];

/// The order in which keys come.
#[derive(Clone, Copy, PartialEq, Eq, Debug)]
pub enum Stream {
    Sequential,
    Random,
    /// A stand-in for sensor data that was never published: 35 random walks in 1/100 degree.
    SyntheticLab,
}

/// The streams that builds are measured on.
pub const STREAMS: [Stream; 3] = [Stream::Sequential, Stream::Random, Stream::SyntheticLab];

impl Stream {
    pub fn name(self) -> &'static str {
        match self {
            Stream::Sequential => "SEQUENTIAL",
            Stream::Random => "RANDOM",
            Stream::SyntheticLab => "LABDATA (synthetic)",
        }
    }

    /// The first `count` keys, all different.
    pub fn keys(self, count: usize) -> Vec<u32> {
        let mut random = Random::new(35);
        match self {
            Stream::Sequential => (0..count as u32).collect(),
            Stream::Random => distinct(count, || random.next_u32()),
            Stream::SyntheticLab => lab_keys(&mut random, count),
        }
    }
}

fn distinct(count: usize, mut next: impl FnMut() -> u32) -> Vec<u32> {
    let mut seen = std::collections::HashSet::new();
    std::iter::repeat_with(&mut next).filter(|&key| seen.insert(key)).take(count).collect()
}

/// Readings in turn of 35 sensors that walk at random from about 20 degrees; the key is temperature, then reading.
fn lab_keys(random: &mut Random, count: usize) -> Vec<u32> {
    let mut sensors: Vec<u32> = (0..35).map(|_| 1900 + random.below(400) as u32).collect();
    let mut key = |reading: usize| {
        let sensor = &mut sensors[reading % 35];
        *sensor = (*sensor + random.below(11) as u32).saturating_sub(5).clamp(1500, 3000);
        *sensor * 65_536 + reading as u32
    };
    (0..count).map(&mut key).collect()
}

/// Puts of all keys, each followed by `reads` gets of keys that are there by then.
pub fn build_with_reads(keys: &[u32], reads: usize) -> Vec<Command> {
    let mut random = Random::new(10);
    let mut commands = Vec::with_capacity(keys.len() * (1 + reads));
    for (at, &key) in keys.iter().enumerate() {
        commands.push(Command::Put { key, value: at as u32 });
        commands.extend((0..reads).map(|_| Command::Get { key: keys[random.below(at + 1)] }));
    }
    commands
}

/// Puts of all keys, and then `reads` gets of each.
pub fn build_then_reads(keys: &[u32], reads: usize) -> Vec<Command> {
    let mut random = Random::new(10);
    let mut queries: Vec<u32> = (0..reads).flat_map(|_| keys.iter().copied()).collect();
    random.shuffle(&mut queries);
    let mut commands = build_with_reads(keys, 0);
    commands.extend(queries.into_iter().map(|key| Command::Get { key }));
    commands
}

#[cfg(test)]
mod tests {
    use super::*;
    use crate::account::Tariff;

    #[test]
    fn tariffs_are_in_range() {
        assert_eq!(FLASHCHIP.tariff(), [5994, 990, 12870, 1998, 26730, 26730, 32724, 26748]);
        assert_eq!(SD.tariff(), [8829, 22292, 289796, 2943, 601884, 601884, 610713, 560243]);
        assert!(DEVICES.iter().all(|device| Tariff::from_numbers(device.tariff()).is_some()));
    }

    #[test]
    fn streams_have_different_keys() {
        for stream in STREAMS {
            let mut keys = stream.keys(3000);
            keys.sort_unstable();
            keys.dedup();
            assert_eq!(keys.len(), 3000);
        }
    }
}
