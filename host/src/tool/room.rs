//! How many new keys a tree can take before a put is refused with 9.

use std::cmp::Reverse;
use std::collections::BinaryHeap;

use crate::layout::{LOWER_KEYS, MAX_KEYS};
use crate::node::Node;
use crate::tree::ROOT;

/// Bounds on the new keys, nothing being deleted: whatever the keys, no fewer fit; and no keys are more than that.
#[derive(Clone, Copy, PartialEq, Eq, Debug)]
pub(super) struct Room {
    pub least: usize,
    pub most: usize,
}

/// The room of a sound tree in a pool of so many nodes.
pub(super) fn room(nodes: &[Node], limit: usize) -> Room {
    let levels = levels(nodes);
    let keys: usize = levels[0].iter().sum();
    let most = MAX_KEYS * most_leaves(&levels, limit) - keys;
    Room { least: least_puts(&levels, limit - nodes.len()), most }
}

/// The number of keys of each node, level by level from the leaves up.
pub(super) fn levels(nodes: &[Node]) -> Vec<Vec<usize>> {
    let mut levels = Vec::new();
    let mut level = vec![&nodes[ROOT]];
    loop {
        levels.push(level.iter().map(|node| node.pairs.len()).collect());
        let below =
            |node: &&'_ Node| (0..=node.pairs.len()).map(|place| node.child(place) as usize).collect::<Vec<_>>();
        if level[0].is_leaf() {
            levels.reverse();
            return levels;
        }
        level = level.iter().flat_map(below).map(|id| &nodes[id]).collect();
    }
}

/// The most leaves that fit: branches have 25 children at most, and no level loses a node.
fn most_leaves(levels: &[Vec<usize>], limit: usize) -> usize {
    let fits = |leaves: &usize| {
        let mut width = *leaves;
        let mut all = width;
        for level in &levels[1..] {
            width = level.len().max(width.div_ceil(MAX_KEYS + 1));
            all += width;
        }
        while width > 1 {
            width = width.div_ceil(MAX_KEYS + 1);
            all += width;
        }
        all <= limit
    };
    (levels[0].len()..).take_while(fits).last().unwrap_or(levels[0].len())
}

/// One level of the tree, as splits see it.
struct Level {
    /// For each node, how many more keys split it.
    wait: BinaryHeap<Reverse<usize>>,
    /// What the two halves of a split wait for.
    halves: [usize; 2],
    /// Keys that went into nodes which split.
    spent: usize,
    splits: usize,
}

impl Level {
    fn of(keys: &[usize], is_leaves: bool) -> Level {
        let wait = keys.iter().map(|keys| Reverse(MAX_KEYS + 1 - keys)).collect();
        // Of a leaf's 25 keys 12 stay and 13 go; of a branch's one rises.
        let upper = if is_leaves { MAX_KEYS + 1 - LOWER_KEYS } else { MAX_KEYS - LOWER_KEYS };
        Level { wait, halves: [MAX_KEYS + 1 - LOWER_KEYS, MAX_KEYS + 1 - upper], spent: 0, splits: 0 }
    }

    /// Splits the node that waits for the fewest keys.
    fn split(&mut self) {
        let Reverse(keys) = self.wait.pop().expect("a level has a node");
        self.spent += keys;
        self.splits += 1;
        self.wait.extend(self.halves.map(Reverse));
    }

    /// Splits as often as so many keys allow.
    fn split_with(&mut self, keys: usize) {
        while self.wait.peek().is_some_and(|Reverse(wait)| self.spent + wait <= keys) {
            self.split();
        }
    }
}

/// The fewest new keys before a put that needs more ids than are left.
///
/// Every level is taken to split as early as its own nodes allow, whichever nodes split below: no order of
/// puts can take ids faster.
fn least_puts(levels: &[Vec<usize>], ids_left: usize) -> usize {
    let mut levels: Vec<Level> = levels.iter().enumerate().map(|(at, keys)| Level::of(keys, at == 0)).collect();
    let mut roots = 0;
    loop {
        levels[0].split();
        let mut below = levels[0].splits;
        for level in &mut levels[1..] {
            level.split_with(below);
            below = level.splits;
        }
        if below > 0 && levels.last().is_some_and(|top| top.wait.len() > 1) {
            // A root that splits takes one id more, and stands again above its halves with one key.
            roots += 1;
            levels.push(Level::of(&[1], false));
        }
        let ids = levels.iter().map(|level| level.splits).sum::<usize>() + roots;
        if ids > ids_left {
            return levels[0].spent - 1;
        }
    }
}

#[cfg(test)]
mod tests {
    use super::*;
    use crate::command::{Answer, Command};
    use crate::foreign::{self, Build, PoolStyle};
    use crate::layout::{node_limit, MIN_BLOCKS};
    use crate::random::Random;
    use crate::tree;

    /// How many new keys go in, in this order, before a put is refused.
    fn taken(nodes: &[Node], limit: usize, keys: impl Iterator<Item = u32>) -> usize {
        let mut nodes = nodes.to_vec();
        let mut new = 0;
        for key in keys {
            let mut steps = Vec::new();
            match tree::plan(&nodes, limit, &Command::Put { key, value: 0 }, &mut steps) {
                Some(Answer::Refused(_)) => return new,
                Some(Answer::Absent) => new += 1,
                _ => {}
            }
            steps.iter().for_each(|step| tree::apply(&mut nodes, step));
        }
        panic!("no put was refused");
    }

    #[test]
    fn an_empty_small_pool_takes_240_to_456_keys() {
        let empty = [Node::empty_leaf()];
        assert_eq!(room(&empty, 20), Room { least: 240, most: 456 });
        assert_eq!(taken(&empty, 20, 0..), 240, "ascending keys are the worst");
    }

    #[test]
    fn every_order_keeps_within_the_bounds() {
        let mut random = Random::new(8);
        for round in 0..60 {
            let style = PoolStyle { blocks: random.between(MIN_BLOCKS, 16), build: Build::Any };
            let (nodes, limit) = match round % 3 {
                0 => (vec![Node::empty_leaf()], node_limit(style.blocks)),
                _ => (foreign::make(&mut random, style).paper.nodes, node_limit(style.blocks)),
            };
            let Room { least, most } = room(&nodes, limit);
            let start = random.next_u32() / 2;
            let orders: [Box<dyn Iterator<Item = u32>>; 3] = [
                Box::new((start..).take(1 << 20)),
                Box::new((0..start).rev().take(1 << 20)),
                Box::new(std::iter::repeat_with(move || random.next_u32()).take(1 << 20)),
            ];
            random = Random::new(100 + round);
            for keys in orders {
                let taken = taken(&nodes, limit, keys);
                assert!((least..=most).contains(&taken), "round {round}: {least} <= {taken} <= {most}");
            }
        }
    }
}
