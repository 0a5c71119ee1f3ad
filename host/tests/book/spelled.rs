//! Pools spelled page by page: what a book would never write, or not yet.

use std::ops::Range;

use crate::common::FREE;
use yokehour_host::layout::{page_range, BLANK, BLOCK_BYTES, MAX_KEYS, NO_LINK};
use yokehour_host::node::{Change, Node, Pair, Shape};
use yokehour_host::page::{Checkpoint, Content, Entry, Page, Score};

/// The version of node 0's entries on the log pages here.
pub const VERSION: u32 = 1;
/// The end of node 0's entries: a leaf without a next one.
pub const LAST_LEAF: Change = Change::Link(Shape::Leaf, NO_LINK);

pub fn added(key: u32) -> Change {
    Change::Put(Pair { key, pointer: key })
}

pub fn leaf(keys: Range<u32>, link: u32) -> Node {
    Node { shape: Shape::Leaf, pairs: keys.map(|key| Pair { key, pointer: key }).collect(), link }
}

pub fn node_page(sequence: u32, id: usize, node: Node) -> Page {
    Page { sequence, content: Content::Node { id: id as u16, node } }
}

/// A log page with changes of node 0.
pub fn log_page(sequence: u32, changes: &[Change]) -> Page {
    let entry = |&change: &Change| Entry { id: 0, version: VERSION, change };
    Page { sequence, content: Content::Log(changes.iter().map(entry).collect()) }
}

/// The pages of a checkpoint with score 0 for each of so many nodes, from a sequence number on.
pub fn checkpoint(sequence: u32, nodes: usize) -> Vec<Page> {
    checkpoint_of_scores(sequence, FREE, &zeros(nodes))
}

/// The pages of a checkpoint with these scores as they stand, one for each node.
fn checkpoint_of_scores(sequence: u32, tariff: [u32; 8], scores: &[Score]) -> Vec<Page> {
    let pages = Checkpoint::pages(tariff, scores, scores.len() as u16).into_iter().zip(sequence..);
    pages.map(|(page, sequence)| Page { sequence, content: Content::Checkpoint(page) }).collect()
}

fn zeros(nodes: usize) -> Vec<Score> {
    (0..nodes).map(|id| Score { id: id as u16, score: 0 }).collect()
}

/// A pool with these pages, one behind the other from the first.
pub fn pool_of(blocks: usize, pages: &[Page]) -> Vec<u8> {
    let mut pool = vec![BLANK; blocks * BLOCK_BYTES];
    for (place, page) in pages.iter().enumerate() {
        pool[page_range(place)].copy_from_slice(&page.encode());
    }
    pool
}

/// A pool of 4 blocks whose node 0 is on these log pages alone.
pub fn pool_of_logs(logs: &[Page]) -> Vec<u8> {
    let next = logs.iter().map(|page| page.sequence).max().unwrap_or(VERSION) + 1;
    pool_of(4, &[logs, &checkpoint(next, 1)].concat())
}

/// A pool of a sound tree of so many nodes, each on a page of its own.
pub fn pool_of_tree(blocks: usize, count: usize) -> Vec<u8> {
    pool_of_scores(blocks, FREE, &zeros(count))
}

/// A pool of a sound tree with a node for each of these scores, which stand in its checkpoint as they do here.
pub fn pool_of_scores(blocks: usize, tariff: [u32; 8], scores: &[Score]) -> Vec<u8> {
    let nodes = tree(scores.len()).into_iter().enumerate();
    let mut pages: Vec<Page> = nodes.map(|(id, node)| node_page(id as u32 + 1, id, node)).collect();
    pages.extend(checkpoint_of_scores(scores.len() as u32 + 1, tariff, scores));
    pool_of(blocks, &pages)
}

/// The keys of leaves begin so far apart, so that there is room between them.
pub const LEAF_STEP: u32 = 100;

/// A sound tree of so many nodes: the root, then branches if one level does not do, then full leaves.
///
/// Every branch is full but the last.
pub fn tree(count: usize) -> Vec<Node> {
    const CHILDREN: usize = MAX_KEYS + 1;
    let branches_over = |leaves: usize| if leaves > CHILDREN { leaves.div_ceil(CHILDREN) } else { 0 };
    let leaves = (2..count).find(|&leaves| 1 + branches_over(leaves) + leaves == count);
    let Some(leaves) = leaves else { return vec![leaf(0..MAX_KEYS as u32, NO_LINK)] };
    let first = 1 + branches_over(leaves) as u32;
    let children: Vec<Child> = (0..leaves as u32).map(|at| Child { id: first + at, low: LEAF_STEP * at }).collect();
    let branches: Vec<&[Child]> = children.chunks(CHILDREN).filter(|_| first > 1).collect();
    let below = |(at, under): (usize, &&[Child])| Child { id: 1 + at as u32, low: under[0].low };
    let upper: Vec<Child> = branches.iter().enumerate().map(below).collect();
    let root = branch(if first > 1 { &upper } else { &children });
    let link = |id: u32| if id as usize + 1 == count { NO_LINK } else { id + 1 };
    let leaf_at = |child: &Child| leaf(child.low..child.low + MAX_KEYS as u32, link(child.id));
    let lower = branches.iter().map(|under| branch(under)).chain(children.iter().map(leaf_at));
    std::iter::once(root).chain(lower).collect()
}

/// A node below a branch, and the least key that it may have.
#[derive(Clone, Copy)]
struct Child {
    id: u32,
    low: u32,
}

fn branch(children: &[Child]) -> Node {
    let pairs = children.windows(2).map(|pair| Pair { key: pair[1].low, pointer: pair[0].id }).collect();
    Node { shape: Shape::Branch, pairs, link: children[children.len() - 1].id }
}
