//! What may be wrong with what is read from a pool that is refused.

use std::collections::BTreeMap;

use crate::layout::{block_count, BLOCK_PAGES};
use crate::mount::{Gathered, Survey};
use crate::node::{Node, Pair, Shape};
use crate::page::{Content, Page};
use crate::refusal::Place;
use crate::repair::Repair;

/// What one version of a node left.
pub(super) struct Left {
    pub version: u32,
    pub pages: Vec<usize>,
    /// The node, or why its pages make none.
    pub node: Result<Node, &'static str>,
    /// Its pairs and its shape as far as they go.
    pairs: Vec<Pair>,
    shape: Option<Shape>,
    /// Whether it has no node page.
    in_log: bool,
}

impl Left {
    pub fn of(gathered: Gathered<'_>) -> Left {
        let (pairs, shape) = match gathered.node_page {
            Some(node) => (node.pairs.clone(), Some(node.shape)),
            None => (gathered.replay.pairs().to_vec(), gathered.replay.shape()),
        };
        let in_log = gathered.node_page.is_none();
        let (node, row) = gathered.finish();
        Left { version: row.version, pages: row.pages, node: node.map_err(|broken| broken.why), pairs, shape, in_log }
    }

    /// The pairs, unless they are a branch's.
    pub fn leaf_pairs(&self) -> &[Pair] {
        match self.shape {
            Some(Shape::Branch) => &[],
            _ => &self.pairs,
        }
    }
}

/// What may be wrong with what is read.
pub(super) struct Doubts {
    /// With all of it.
    pub of_all: Vec<String>,
    /// The pages that do not check, with their numbers: each may hold what is newer than a lower version.
    newer: Vec<(u32, usize)>,
    /// With nodes that lie on a page.
    of_pages: Vec<(usize, String)>,
    /// The sequence number of the last page that closes a checkpoint, where the newest checkpoint is not whole.
    closed: Option<u32>,
    sequences: BTreeMap<usize, u32>,
}

impl Doubts {
    pub fn of(pool: &[u8], survey: &Survey, repairs: &BTreeMap<usize, Repair>) -> Doubts {
        let mended = |(&page, repair): (&usize, &Repair)| (page, mended(page, repair));
        Doubts {
            of_all: lost(pool, survey),
            newer: newer(survey),
            of_pages: repairs.iter().map(mended).chain(twins(survey)).collect(),
            closed: survey.count().is_none().then(|| closed(survey)),
            sequences: survey.pages.iter().map(|(page, decoded)| (*page, decoded.sequence)).collect(),
        }
    }

    /// What may be wrong with one version of a node.
    pub fn of_node(&self, left: &Left) -> Vec<String> {
        let of_pages = self.of_pages.iter().filter(|(page, _)| left.pages.contains(page)).map(|(_, doubt)| doubt);
        let last = left.pages.iter().filter_map(|page| self.sequences.get(page)).max();
        let open = self.closed.filter(|closed| last.is_some_and(|last| last > closed));
        let open = open.map(|_| "no whole checkpoint closes it".to_string());
        let has_entries = left.in_log || left.pages.len() > 1;
        let shared = has_entries && self.sequences.values().any(|&sequence| sequence == left.version);
        let shared = shared.then(|| "its version is a page's sequence number".to_string());
        let of_all = self.of_all.first().into_iter();
        of_all.chain(of_pages).cloned().chain(self.newer_than(left.version)).chain(open).chain(shared).collect()
    }

    /// Which pages that do not check may hold something newer than a version.
    fn newer_than(&self, version: u32) -> Option<String> {
        let mut newer = self.newer.iter().filter(|(sequence, _)| *sequence > version).map(|(_, page)| page);
        let first = newer.next()?;
        Some(match newer.count() {
            0 => format!("page {first}, which does not check, may hold something newer"),
            more => format!("page {first} and {more} more, which do not check, may hold something newer"),
        })
    }
}

/// Signs that pages are missing, which may have held anything.
fn lost(pool: &[u8], survey: &Survey) -> Vec<String> {
    let mut signs = Vec::new();
    if block_count(pool.len()).is_none() {
        signs.push(format!("{} bytes are no length of a pool: pages may be missing", pool.len()));
    }
    for page in &survey.behind_blank {
        signs.push(format!("page {page} of block {} stands behind a blank one: a page is lost", page / BLOCK_PAGES));
    }
    let mut faults = Vec::new();
    survey.check_pages(&mut faults);
    for fault in faults.iter().filter(|fault| matches!(fault.at, Place::Block(_))) {
        signs.push(format!("{}: {}: pages may be lost", fault.at, fault.why));
    }
    signs
}

/// The pages that share a sequence number: which of two is the newer cannot be told.
fn twins(survey: &Survey) -> Vec<(usize, String)> {
    let same = survey.pages.windows(2).filter(|pair| pair[0].1.sequence == pair[1].1.sequence);
    let both = same.map(|pair| [pair[0].0, pair[1].0]);
    both.flat_map(|[a, b]| [a, b].map(|page| (page, format!("pages {a} and {b} have one sequence number")))).collect()
}

fn mended(page: usize, repair: &Repair) -> String {
    format!("on page {page}, read with {:02x} at byte {}", repair.value, repair.byte)
}

/// The pages that do not check, with their sequence numbers, or the greatest where that cannot be read.
fn newer(survey: &Survey) -> Vec<(u32, usize)> {
    let number = |page: &Option<Page>| page.as_ref().map(|page| page.sequence).filter(|&sequence| sequence > 0);
    survey.broken.iter().map(|(page, reading)| (number(&reading.page).unwrap_or(u32::MAX), *page)).collect()
}

/// The greatest sequence number of a page with a node count, 0 if there is none.
fn closed(survey: &Survey) -> u32 {
    let closes = |page: &&Page| matches!(&page.content, Content::Checkpoint(checkpoint) if checkpoint.count.is_some());
    survey.pages.iter().map(|(_, page)| page).filter(closes).map(|page| page.sequence).max().unwrap_or(0)
}
