//! Sequence numbers, versions and dead content for the pages of a foreign pool.

use std::collections::HashSet;

use super::draft::PlannedPage;
use super::spelling::Spelling;
use super::PoolStyle;
use crate::layout::{LOG_PAGE_ENTRIES, MAX_KEYS, MAX_SEQUENCE};
use crate::node::{Change, Node, Pair, Shape};
use crate::page::{checkpoint_capacity, Checkpoint, Content, Entry, Page, Score};
use crate::random::Random;

/// Gives every page its sequence number and every entry its version.
pub(super) fn number_pages(
    random: &mut Random,
    spelling: &Spelling,
    planned: &[PlannedPage],
    checkpoint: Vec<Checkpoint>,
    sequences: &[u32],
) -> Vec<Page> {
    let versions = Versions::random(random, spelling, planned, sequences);
    let mut pages: Vec<Page> = Vec::with_capacity(sequences.len());
    for (page, &sequence) in planned.iter().zip(sequences) {
        let content = page.content(random, spelling, sequence, &versions);
        pages.push(Page { sequence, content });
    }
    let newest = checkpoint.into_iter().zip(&sequences[planned.len()..]);
    pages.extend(newest.map(|(page, &sequence)| Page { sequence, content: Content::Checkpoint(page) }));
    pages
}

/// Numbers just below this one are mostly bytes FF.
const HIGH_SEQUENCE: u32 = 0xDFFF_FFFF;

/// Ascending sequence numbers, never two in a row, so that there are versions between them.
pub(super) fn random_sequences(random: &mut Random, count: usize, style: PoolStyle) -> Vec<u32> {
    let gap = if style.is_high() { 3 } else { random.pick(&[2, 3, 50, 100_000]) };
    let mut sequences = Vec::with_capacity(count);
    let mut last = 0;
    for _ in 0..count {
        last += random.between(2, gap) as u32;
        sequences.push(last);
    }
    // Shift some up to the greatest that opens, or just below.
    let up = match style.is_high() {
        true => HIGH_SEQUENCE - last - random.pick(&[0, 300, 3000]),
        false if random.once_in(4) => MAX_SEQUENCE - last - random.pick(&[0, 0, 1, 1000]),
        false => 0,
    };
    sequences.iter_mut().for_each(|sequence| *sequence += up);
    sequences
}

/// The greatest version of each node, and the numbers that no version may be.
struct Versions {
    greatest: Vec<u32>,
    /// The sequence numbers of pages.
    taken: HashSet<u32>,
}

impl Versions {
    /// A node page's sequence number, or a number below that of a log node's first page.
    fn random(random: &mut Random, spelling: &Spelling, planned: &[PlannedPage], sequences: &[u32]) -> Versions {
        let taken: HashSet<u32> = sequences.iter().copied().collect();
        let mut greatest = vec![0; spelling.nodes.len()];
        for (page, &sequence) in planned.iter().zip(sequences) {
            match page {
                PlannedPage::Node(id) => greatest[*id] = sequence,
                PlannedPage::Log(entries) => {
                    for &(id, _) in entries.iter() {
                        if greatest[id] == 0 {
                            greatest[id] = random_version(random, sequence, &taken);
                        }
                    }
                }
                PlannedPage::DeadLog | PlannedPage::DeadNode | PlannedPage::DeadCheckpoint => {}
            }
        }
        Versions { greatest, taken }
    }
}

/// A number from 1, below `end`, that is no page's; the one before a page's sequence number never is.
fn random_version(random: &mut Random, end: u32, taken: &HashSet<u32>) -> u32 {
    let any = 1 + random.next_u32() % (end - 1);
    if random.once_in(2) || taken.contains(&any) {
        end - 1
    } else {
        any
    }
}

impl PlannedPage {
    /// What the page says under a sequence number.
    fn content(&self, random: &mut Random, spelling: &Spelling, sequence: u32, versions: &Versions) -> Content {
        match self {
            PlannedPage::Log(entries) => {
                let version = |id: usize| versions.greatest[id];
                let entry = |&(id, change): &(usize, Change)| Entry { id: id as u16, version: version(id), change };
                let mut entries: Vec<Entry> = entries.iter().map(entry).collect();
                add_dead_entries(random, &mut entries, sequence, versions);
                Content::Log(entries)
            }
            PlannedPage::Node(id) => Content::Node { id: *id as u16, node: spelling.nodes[*id].clone() },
            PlannedPage::DeadLog => {
                let mut entries = Vec::new();
                while entries.is_empty() {
                    add_dead_entries(random, &mut entries, sequence, versions);
                }
                Content::Log(entries)
            }
            PlannedPage::DeadNode => dead_node_page(random, sequence, &versions.greatest),
            PlannedPage::DeadCheckpoint => Content::Checkpoint(dead_checkpoint_page(random)),
        }
    }
}

/// Entries that mean nothing: of ids at or above the count, or of versions that are not the greatest.
fn add_dead_entries(random: &mut Random, entries: &mut Vec<Entry>, sequence: u32, versions: &Versions) {
    for _ in 0..random.pick(&[0, 1, 5, LOG_PAGE_ENTRIES]) {
        if entries.len() == LOG_PAGE_ENTRIES {
            return;
        }
        let id = random.below(versions.greatest.len() + 3);
        let end = versions.greatest.get(id).map_or(sequence, |&version| version.min(sequence));
        let version = if end > 1 { 1 + random.next_u32() % (end - 1) } else { 0 };
        if version > 0 && !versions.taken.contains(&version) {
            let change = random_change(random);
            let at = random.between(0, entries.len());
            entries.insert(at, Entry { id: id as u16, version, change });
        }
    }
}

fn random_change(random: &mut Random) -> Change {
    let number = random.next_u32() % random.pick(&[10, u32::MAX]);
    match random.below(4) {
        0 => Change::Delete { key: number },
        1 => Change::Link(Shape::Leaf, number),
        2 => Change::Link(Shape::Branch, number),
        _ => Change::Put(Pair { key: number, pointer: random.next_u32() }),
    }
}

/// A node page that means nothing, with keys in any order.
fn dead_node_page(random: &mut Random, sequence: u32, versions: &[u32]) -> Content {
    let id = random.below(versions.len());
    let id = if versions[id] > sequence { id } else { versions.len() + random.below(1000) };
    let shape = random.pick(&[Shape::Leaf, Shape::Branch]);
    let keys = random.between(0, MAX_KEYS);
    let pairs = (0..keys).map(|_| Pair { key: random.next_u32() % 50, pointer: random.next_u32() }).collect();
    Content::Node { id: id as u16, node: Node { shape, pairs, link: random.next_u32() } }
}

/// A checkpoint page that is full or a last one, whatever it says.
pub(super) fn dead_checkpoint_page(random: &mut Random) -> Checkpoint {
    let first = random.once_in(2);
    let last = random.once_in(2);
    let capacity = checkpoint_capacity(first);
    let count = if last { random.between(1, capacity) } else { capacity };
    // Now and then such that sum a wraps.
    let filled = if random.once_in(4) { u32::MAX } else { 0 };
    let mut number = || random.next_u32() | filled;
    let scores = (0..count).map(|_| Score { id: number() as u16, score: number() }).collect();
    Checkpoint {
        tariff: first.then(|| std::array::from_fn(|_| random.next_u32())),
        scores,
        count: last.then(|| random.next_u32() as u16),
    }
}
