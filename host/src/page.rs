//! A page: its bytes and what they say.

mod read;

use crate::layout::{BLANK, FIRST_CHECKPOINT_SCORES, OTHER_CHECKPOINT_SCORES, PAGE_BYTES};
use crate::node::{Change, Node, Pair, Shape};
use crate::wire::{page_sum, put_head, unreduced_sums, FIELD_HEAD, SUM_MODULUS};
use crate::wire::{
    COUNT_BYTES, ENTRY_BYTES, NODE_HEAD, PAIR_BYTES, SCORE_BYTES, SEQUENCE_BYTES, SUM_BYTES, TARIFF_BYTES,
};
use crate::wire::{TAG_COUNT, TAG_ENTRY, TAG_NODE, TAG_SCORE, TAG_SEQUENCE, TAG_SUM, TAG_TARIFF};

pub use read::{decode, examine, is_blank, used, Flaw, Reading};

/// The bytes of a page.
pub type Image = [u8; PAGE_BYTES];

/// A written page.
#[derive(Clone, PartialEq, Eq, Debug)]
pub struct Page {
    /// Its sequence number, document 01's stamp.
    pub sequence: u32,
    pub content: Content,
}

#[derive(Clone, PartialEq, Eq, Debug)]
pub enum Content {
    /// A log page.
    Log(Vec<Entry>),
    /// A node page: the whole content of one node in disk mode.
    Node { id: u16, node: Node },
    /// A checkpoint page.
    Checkpoint(Checkpoint),
}

/// A log entry: one change of a node, under the version that it belongs to.
#[derive(Clone, Copy, PartialEq, Eq, Debug)]
pub struct Entry {
    pub id: u16,
    pub version: u32,
    pub change: Change,
}

/// What a checkpoint page holds: the tariff on the first, the node count on the last.
#[derive(Clone, PartialEq, Eq, Debug)]
pub struct Checkpoint {
    pub tariff: Option<[u32; 8]>,
    pub scores: Vec<Score>,
    pub count: Option<u16>,
}

#[derive(Clone, Copy, PartialEq, Eq, Debug)]
pub struct Score {
    pub id: u16,
    pub score: u32,
}

impl Checkpoint {
    /// The scores that this page holds when full.
    fn capacity(&self) -> usize {
        checkpoint_capacity(self.tariff.is_some())
    }
}

/// The scores on a full checkpoint page, the first of its set or another.
pub fn checkpoint_capacity(first: bool) -> usize {
    if first {
        FIRST_CHECKPOINT_SCORES
    } else {
        OTHER_CHECKPOINT_SCORES
    }
}

const KIND_PUT: u8 = 1;
const KIND_DELETE: u8 = 2;
/// These two also tell leaf from branch on a node page.
const KIND_LEAF: u8 = 3;
const KIND_BRANCH: u8 = 4;

fn shape_of(number: u8) -> Option<Shape> {
    match number {
        KIND_LEAF => Some(Shape::Leaf),
        KIND_BRANCH => Some(Shape::Branch),
        _ => None,
    }
}

fn kind_of(shape: Shape) -> u8 {
    match shape {
        Shape::Leaf => KIND_LEAF,
        Shape::Branch => KIND_BRANCH,
    }
}

/// Where a page's content begins.
pub const CONTENT_START: usize = FIELD_HEAD + SEQUENCE_BYTES;
/// Bytes of a log entry, its head included, and where its version and its kind stand.
pub const ENTRY_FIELD_BYTES: usize = FIELD_HEAD + ENTRY_BYTES;
pub const ENTRY_VERSION: usize = FIELD_HEAD + 2;
pub const ENTRY_KIND: usize = ENTRY_VERSION + 4;

/// Where the log entry at a place begins.
pub fn entry_start(place: usize) -> usize {
    CONTENT_START + ENTRY_FIELD_BYTES * place
}

/// Where the pair at a place of a node page begins.
pub fn pair_start(place: usize) -> usize {
    CONTENT_START + FIELD_HEAD + NODE_HEAD + PAIR_BYTES * place
}

/// Where a node page has its link.
pub const LINK_START: usize = CONTENT_START + FIELD_HEAD + 3;

/// Where the first tariff number stands on a checkpoint's first page.
pub const TARIFF_START: usize = CONTENT_START + FIELD_HEAD;

/// Where the score at a place of a checkpoint page begins, on the first of its set or on another.
pub fn score_start(first: bool, place: usize) -> usize {
    let tariff = if first { FIELD_HEAD + TARIFF_BYTES } else { 0 };
    CONTENT_START + tariff + (FIELD_HEAD + SCORE_BYTES) * place
}

impl Page {
    /// The page's bytes.
    pub fn encode(&self) -> Image {
        let mut out = Vec::with_capacity(PAGE_BYTES);
        self.encode_before_sum(&mut out);
        seal(out)
    }

    fn encode_before_sum(&self, out: &mut Vec<u8>) {
        put_head(out, TAG_SEQUENCE, SEQUENCE_BYTES);
        out.extend(self.sequence.to_be_bytes());
        match &self.content {
            Content::Log(entries) => entries.iter().for_each(|entry| entry.encode(out)),
            Content::Node { id, node } => encode_node(out, *id, node),
            Content::Checkpoint(page) => page.encode(out),
        }
    }

    fn length(&self) -> usize {
        let mut out = Vec::with_capacity(PAGE_BYTES);
        self.encode_before_sum(&mut out);
        out.len() + SUM_FIELD_BYTES
    }

    /// The version that a node page or an entry gives to a node, with that node's id.
    pub fn versions(&self) -> impl Iterator<Item = (u16, u32)> + '_ {
        let (entries, node): (&[Entry], _) = match &self.content {
            Content::Log(entries) => (entries, None),
            Content::Node { id, .. } => (&[], Some((*id, self.sequence))),
            Content::Checkpoint(_) => (&[], None),
        };
        entries.iter().map(|entry| (entry.id, entry.version)).chain(node)
    }
}

/// Bytes of field 1F, its head included.
pub const SUM_FIELD_BYTES: usize = FIELD_HEAD + SUM_BYTES;

/// Ends a page's bytes with their sum and FF.
pub fn seal(mut out: Vec<u8>) -> Image {
    let sum = page_sum(&out);
    put_head(&mut out, TAG_SUM, sum.len());
    out.extend(sum);
    let mut image = [BLANK; PAGE_BYTES];
    image[..out.len()].copy_from_slice(&out);
    image
}

/// Whether the sums b and a of a written page pass the modulus.
pub fn sums_wrap(bytes: &[u8]) -> [bool; 2] {
    let end = used(bytes).len() - SUM_FIELD_BYTES;
    unreduced_sums(&bytes[..end]).map(|sum| sum >= SUM_MODULUS)
}

impl Entry {
    fn encode(&self, out: &mut Vec<u8>) {
        let (kind, key, pointer) = match self.change {
            Change::Put(Pair { key, pointer }) => (KIND_PUT, key, pointer),
            Change::Delete { key } => (KIND_DELETE, key, 0),
            Change::Link(shape, link) => (kind_of(shape), 0, link),
        };
        put_head(out, TAG_ENTRY, ENTRY_BYTES);
        out.extend(self.id.to_be_bytes());
        out.extend(self.version.to_be_bytes());
        out.push(kind);
        out.extend(key.to_be_bytes());
        out.extend(pointer.to_be_bytes());
    }
}

fn encode_node(out: &mut Vec<u8>, id: u16, node: &Node) {
    put_head(out, TAG_NODE, NODE_HEAD + PAIR_BYTES * node.pairs.len());
    out.extend(id.to_be_bytes());
    out.push(kind_of(node.shape));
    out.extend(node.link.to_be_bytes());
    for pair in &node.pairs {
        out.extend(pair.key.to_be_bytes());
        out.extend(pair.pointer.to_be_bytes());
    }
}

impl Checkpoint {
    fn encode(&self, out: &mut Vec<u8>) {
        if let Some(tariff) = self.tariff {
            put_head(out, TAG_TARIFF, TARIFF_BYTES);
            tariff.iter().for_each(|number| out.extend(number.to_be_bytes()));
        }
        for score in &self.scores {
            put_head(out, TAG_SCORE, SCORE_BYTES);
            out.extend(score.id.to_be_bytes());
            out.extend(score.score.to_be_bytes());
        }
        if let Some(count) = self.count {
            put_head(out, TAG_COUNT, COUNT_BYTES);
            out.extend(count.to_be_bytes());
        }
    }

    /// The pages of a whole checkpoint: each is filled before the next.
    pub fn pages(tariff: [u32; 8], mut scores: &[Score], count: u16) -> Vec<Checkpoint> {
        let mut pages = Vec::new();
        while pages.is_empty() || !scores.is_empty() {
            let first = pages.is_empty();
            let (here, rest) = scores.split_at(scores.len().min(checkpoint_capacity(first)));
            scores = rest;
            pages.push(Checkpoint {
                tariff: first.then_some(tariff),
                scores: here.to_vec(),
                count: rest.is_empty().then_some(count),
            });
        }
        pages
    }
}

#[cfg(test)]
mod tests {
    use super::*;
    use crate::layout::{LOG_PAGE_ENTRIES, MAX_KEYS};

    fn log(entries: usize) -> Page {
        let entry = |i: usize| {
            let change = match i % 4 {
                0 => Change::Put(Pair { key: i as u32, pointer: 0xFFFF_FFFF }),
                1 => Change::Delete { key: 0xFFFF_FFFF },
                2 => Change::Link(Shape::Leaf, i as u32),
                _ => Change::Link(Shape::Branch, 0xFFFF_FFFF),
            };
            Entry { id: i as u16, version: 1 + i as u32, change }
        };
        Page { sequence: 1000, content: Content::Log((0..entries).map(entry).collect()) }
    }

    fn checkpoint(tariff: bool, scores: usize, count: bool) -> Page {
        let scores = (0..scores).map(|id| Score { id: id as u16, score: 0xFFFF_FFFF }).collect();
        let tariff = tariff.then_some([1, 2, 3, 4, 5, 6, 7, 8]);
        Page { sequence: 9, content: Content::Checkpoint(Checkpoint { tariff, scores, count: count.then_some(3) }) }
    }

    fn checks(page: &Page) -> bool {
        decode(&page.encode()) == Ok(Some(page.clone()))
    }

    #[test]
    fn pages_go_both_ways() {
        assert!((1..=LOG_PAGE_ENTRIES).all(|entries| checks(&log(entries))));
        for keys in 0..=MAX_KEYS as u32 {
            let pairs = (0..keys).map(|key| Pair { key, pointer: key }).collect();
            let node = Node { shape: Shape::Branch, pairs, link: 5 };
            assert!(checks(&Page { sequence: 0xFFFF_FFFF, content: Content::Node { id: 0xFFFF, node } }));
        }
        assert_eq!(decode(&[BLANK; PAGE_BYTES]), Ok(None));
        assert!(!checks(&log(0)), "fields 10 and 1F alone");
    }

    #[test]
    fn checkpoint_pages_are_full_or_last() {
        for (first, full) in [(true, FIRST_CHECKPOINT_SCORES), (false, OTHER_CHECKPOINT_SCORES)] {
            for scores in 0..=full {
                assert_eq!(checks(&checkpoint(first, scores, true)), scores > 0);
                assert_eq!(checks(&checkpoint(first, scores, false)), scores == full);
            }
            // One more would fit without a count.
            assert!(!checks(&checkpoint(first, full + 1, false)));
        }
    }

    #[test]
    fn every_changed_byte_is_seen() {
        for page in [log(3), checkpoint(true, 2, true)] {
            let image = page.encode();
            for at in 0..PAGE_BYTES {
                for change in [1, 0x80, 0xFF] {
                    let mut other = image;
                    other[at] ^= change;
                    assert!(decode(&other).is_err(), "byte {at}");
                }
            }
        }
    }

    #[test]
    fn what_is_left_of_a_broken_page_is_read() {
        let page = log(9);
        let left = |at: usize| {
            let mut bytes = page.encode();
            bytes[at] ^= 0x55;
            let Reading { page, flaws } = examine(&bytes);
            let entries = page.map(|page| match page.content {
                Content::Log(entries) => entries.len(),
                other => panic!("{other:?}"),
            });
            (entries, flaws.iter().map(|flaw| flaw.byte).collect::<Vec<_>>())
        };
        let sum = entry_start(9) + FIELD_HEAD;
        assert_eq!(left(0), (Some(9), vec![0, sum]), "the sequence number's tag");
        assert_eq!(left(entry_start(0)), (Some(8), vec![entry_start(0), sum]), "the first entry's tag");
        assert_eq!(left(entry_start(4) + 1), (Some(8), vec![entry_start(4), sum]), "an entry's length");
        assert_eq!(left(entry_start(4) + ENTRY_KIND), (Some(8), vec![entry_start(4) + ENTRY_KIND, sum]));
        assert_eq!(left(entry_start(4) + 12), (Some(9), vec![sum]), "a key");
        assert_eq!(left(sum), (Some(9), vec![sum]));
        assert_eq!(left(500), (Some(9), vec![500]));
    }

    #[test]
    fn entries_keep_their_rules() {
        // A page of one entry with these numbers, its sum right.
        let with = |sequence: u32, version: u32, kind: u8, key: u32, pointer: u32| {
            let mut out = Vec::new();
            put_head(&mut out, TAG_SEQUENCE, SEQUENCE_BYTES);
            out.extend(sequence.to_be_bytes());
            put_head(&mut out, TAG_ENTRY, ENTRY_BYTES);
            out.extend(7u16.to_be_bytes());
            out.extend(version.to_be_bytes());
            out.push(kind);
            out.extend(key.to_be_bytes());
            out.extend(pointer.to_be_bytes());
            decode(&seal(out)).is_ok()
        };
        assert!(with(2, 1, 1, 5, 6) && with(2, 1, 2, 5, 0) && with(2, 1, 3, 0, 6) && with(2, 1, 4, 0, 6));
        assert!(!with(2, 0, 1, 5, 6), "version 0");
        assert!(!with(2, 2, 1, 5, 6) && !with(2, 3, 1, 5, 6), "a version not below its page's sequence number");
        assert!(!with(2, 1, 0, 5, 6) && !with(2, 1, 5, 5, 6), "an unknown kind");
        assert!(!with(2, 1, 2, 5, 6), "a delete with a pointer");
        assert!(!with(2, 1, 3, 5, 6) && !with(2, 1, 4, 5, 6), "a link with a key");
    }

    #[test]
    fn a_checkpoint_is_filled_page_by_page() {
        let pages = |nodes: usize| {
            let scores: Vec<Score> = (0..nodes).map(|id| Score { id: id as u16, score: 0 }).collect();
            Checkpoint::pages([1; 8], &scores, nodes as u16)
        };
        assert_eq!([1, 50, 51, 104, 105, 620].map(|nodes| pages(nodes).len()), [1, 1, 2, 2, 3, 12]);
        let pages = pages(105);
        assert!(pages.iter().all(|page| checks(&Page { sequence: 5, content: Content::Checkpoint(page.clone()) })));
        assert!(pages[0].tariff.is_some() && pages[2].count == Some(105) && pages[1].count.is_none());
    }
}
