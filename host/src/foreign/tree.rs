//! Random sound trees: thin and full branches, empty leaves, ids in any order.

use std::collections::BTreeSet;

use super::{Build, PoolStyle};
use crate::layout::{node_limit, MAX_KEYS, MAX_LEVELS, NO_LINK};
use crate::node::{Node, Pair, Shape};
use crate::random::Random;

/// A random sound tree within the limit: thin or fat branches, empty leaves, ids in any order.
pub(super) fn random_tree(random: &mut Random, style: PoolStyle) -> Vec<Node> {
    let limit = node_limit(style.blocks);
    let levels = match style.build {
        Build::Any | Build::High => {
            let most = if random.once_in(2) { limit } else { limit.min(30) };
            let leaves = random.between(1, most);
            levels_within(random, limit, leaves)
        }
        Build::Tight => levels_within(random, limit, limit),
        Build::Brink => brink_levels(random, limit),
        Build::Deep => deep_levels(),
    };
    // High keys are made low first, and raised to the greatest there are.
    let end = if style.is_high() { (64 * levels[0].len()) as u64 } else { KEYS_END };
    let mut nodes = tree_of_levels(random, &levels, end);
    if style.is_high() {
        raise(&mut nodes, (KEYS_END - end) as u32);
    }
    nodes
}

/// The end of all keys.
const KEYS_END: u64 = 1 << 32;

/// Raises all keys by so much, and values to almost the greatest.
fn raise(nodes: &mut [Node], by: u32) {
    for node in nodes {
        let is_leaf = node.is_leaf();
        for pair in &mut node.pairs {
            pair.key += by;
            pair.pointer |= if is_leaf { 0xFFFF_FFF0 } else { 0 };
        }
    }
}

/// Levels over so many leaves, or as few fewer as keep to the limit.
fn levels_within(random: &mut Random, limit: usize, mut leaves: usize) -> Vec<Vec<usize>> {
    let fanout = random.pick(&[2, 3, 6, MAX_KEYS + 1]);
    let mut levels = random_levels(random, leaves, fanout);
    while node_count(&levels) > limit {
        leaves -= 1 + leaves / 20;
        levels = random_levels(random, leaves, fanout);
    }
    levels
}

fn tree_of_levels(random: &mut Random, levels: &[Vec<usize>], end: u64) -> Vec<Node> {
    let bounds = random_bounds(random, levels, end);
    let mut ids: Vec<usize> = (1..node_count(levels)).collect();
    random.shuffle(&mut ids);
    ids.push(0);
    ids.reverse();
    build_tree(random, levels, &bounds, &ids)
}

/// A full root over full and thin branches: a split up to the root takes four ids, which are just there, or just not.
fn brink_levels(random: &mut Random, limit: usize) -> Vec<Vec<usize>> {
    let fanout = MAX_KEYS + 1;
    let mut leaves = limit - 1 - fanout - random.pick(&[0, 1, 2, 3, 3, 4, 4, 5]);
    let mut branches = vec![2; fanout];
    leaves -= 2 * fanout;
    for children in &mut branches {
        let more = leaves.min(fanout - 2);
        *children += more;
        leaves -= more;
    }
    random.shuffle(&mut branches);
    let leaves = branches.iter().sum();
    vec![vec![0; leaves], branches, vec![fanout]]
}

/// Nine levels: every branch has two children, but that the first one two levels above the leaves is full, and so is
/// the first below it.
fn deep_levels() -> Vec<Vec<usize>> {
    let fanout = MAX_KEYS + 1;
    let mut levels: Vec<Vec<usize>> = (0..MAX_LEVELS - 1).rev().map(|height| vec![2; 1 << height]).collect();
    levels[1][0] = fanout;
    levels[0].extend(vec![2; fanout - 2]);
    levels[0][0] = fanout;
    let leaves = levels[0].iter().sum();
    levels.insert(0, vec![0; leaves]);
    levels
}

/// The children of each branch, level by level from the one above the leaves; a leaf alone has none.
fn random_levels(random: &mut Random, leaves: usize, fanout: usize) -> Vec<Vec<usize>> {
    let mut levels = vec![vec![0; leaves]];
    while levels.last().is_some_and(|level| level.len() > 1) {
        let mut rest = levels.last().map_or(0, Vec::len);
        let mut level = Vec::new();
        while rest > 0 {
            let mut take = random.between(2, fanout.min(rest));
            // Nobody has one child only.
            if rest - take == 1 {
                take = if take > 2 { take - 1 } else { rest };
            }
            level.push(take);
            rest -= take;
        }
        levels.push(level);
    }
    levels
}

fn node_count(levels: &[Vec<usize>]) -> usize {
    levels.iter().map(Vec::len).sum()
}

/// The least key that each leaf may have, and the end of the last one's keys: ascending, but that a leaf which
/// is its parent's first child may have no room at all.
fn random_bounds(random: &mut Random, levels: &[Vec<usize>], end: u64) -> Vec<u64> {
    let leaves = levels[0].len();
    let span = random.pick(&[leaves as u64, 30 * leaves as u64, 1 << 20, KEYS_END]).clamp(leaves as u64, end);
    let mut chosen = BTreeSet::new();
    while chosen.len() + 1 < leaves {
        chosen.insert(random.next_u64() % span);
    }
    let mut bounds: Vec<u64> = std::iter::once(0).chain(chosen).collect();
    bounds.push(end);
    if random.once_in(2) {
        let mut first = 0;
        for children in levels.get(1).into_iter().flatten() {
            if random.once_in(4) {
                bounds[first + 1] = bounds[first];
            }
            first += children;
        }
    }
    bounds
}

/// Fills the levels with nodes; `ids` are taken from the root downwards.
fn build_tree(random: &mut Random, levels: &[Vec<usize>], bounds: &[u64], ids: &[usize]) -> Vec<Node> {
    let mut nodes = vec![Node::empty_leaf(); node_count(levels)];
    let mut end = ids.len();
    // The ids of the level below, and the number of the first leaf under each.
    let mut below: Vec<(usize, usize)> = Vec::new();
    for level in levels {
        let own = &ids[end - level.len()..end];
        end -= level.len();
        let mut here = Vec::new();
        let mut taken = 0;
        for (place, (&id, &children)) in own.iter().zip(level).enumerate() {
            if children == 0 {
                let link = own.get(place + 1).map_or(NO_LINK, |&next| next as u32);
                let pairs = random_pairs(random, bounds[place], bounds[place + 1]);
                nodes[id] = Node { shape: Shape::Leaf, pairs, link };
                here.push((id, place));
            } else {
                let under = &below[taken..taken + children];
                nodes[id] = branch_over(under, bounds);
                here.push((id, under[0].1));
                taken += children;
            }
        }
        below = here;
    }
    nodes
}

fn branch_over(children: &[(usize, usize)], bounds: &[u64]) -> Node {
    let pair = |pair: &[(usize, usize)]| Pair { key: bounds[pair[1].1] as u32, pointer: pair[0].0 as u32 };
    let pairs = children.windows(2).map(pair).collect();
    let (last, _) = children[children.len() - 1];
    Node { shape: Shape::Branch, pairs, link: last as u32 }
}

/// 0 to 24 pairs with keys from `low`, below `end`.
fn random_pairs(random: &mut Random, low: u64, end: u64) -> Vec<Pair> {
    let most = random.pick(&[0, 1, MAX_KEYS / 2, MAX_KEYS - 1, MAX_KEYS, MAX_KEYS]);
    let want = most.min((end - low) as usize);
    let mut keys = BTreeSet::new();
    if end > low {
        // Keys close together, so that a small range is filled whole.
        let span = (end - low).min(random.pick(&[40, 1 << 32]));
        for _ in 0..10 * want {
            if keys.len() < want {
                keys.insert((low + random.next_u64() % span) as u32);
            }
        }
    }
    keys.into_iter().map(|key| Pair { key, pointer: random.next_u32() }).collect()
}
