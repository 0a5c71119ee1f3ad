//! Pools whose leaves deletes have emptied: they stay linked, and a scan of all keys reads every one.

use crate::command::Command;
use crate::layout::{LOG_PAGE_ENTRIES, LOWER_KEYS, MAX_LOG_PAGES};
use crate::metered::Metered;
use crate::mount::{mount, Mounted};
use crate::node::Node;
use crate::tree;
use crate::workload::LOG_ONLY;

/// Keys from one to the next of those that make the leaves.
const GAP: u32 = 1_000;

/// A way to empty the leaves; what a read of one takes depends on the log entries that it is left with.
pub struct Emptying {
    pub name: &'static str,
    empty: fn(&mut Metered) -> Result<(), String>,
}

/// All ways.
pub const EMPTYINGS: [Emptying; 2] = [
    Emptying { name: "in key order", empty: in_key_order },
    Emptying { name: "one by one, each left with 81 log entries", empty: one_by_one },
];

impl Emptying {
    /// A pool in log mode of so many blocks, with so many leaves, all of them empty.
    pub fn pool(&self, blocks: usize, leaves: usize) -> Result<Vec<u8>, String> {
        let mut metered = Metered::new(blocks, LOG_ONLY)?;
        metered.run(&full_leaves(leaves as u32))?;
        (self.empty)(&mut metered)?;
        let nodes = opened(&metered.pool)?.nodes;
        let empty = nodes.iter().filter(|node| node.is_leaf() && node.pairs.is_empty()).count();
        match (empty, tree::pairs(&nodes).len()) {
            (empty, 0) if empty == leaves => Ok(metered.pool),
            found => Err(format!("{leaves} empty leaves and no key expected, not {found:?}")),
        }
    }
}

fn opened(pool: &[u8]) -> Result<Mounted, String> {
    mount(pool).map_err(|fault| format!("the pool is refused with {fault}"))
}

/// Puts of ascending keys, which leave twelve in each leaf but the last, and then of twelve more between the first two
/// of each.
fn full_leaves(leaves: u32) -> Vec<Command> {
    let half = LOWER_KEYS as u32;
    let ascending = (0..half * (leaves + 1)).map(|at| GAP * at);
    let more = (0..leaves - 1).flat_map(|leaf| (1..=half).map(move |more| GAP * half * leaf + more));
    ascending.chain(more).map(|key| Command::Put { key, value: key }).collect()
}

fn in_key_order(metered: &mut Metered) -> Result<(), String> {
    let pairs = tree::pairs(&opened(&metered.pool)?.nodes);
    let deletes: Vec<Command> = pairs.into_iter().map(|pair| Command::Delete { key: pair.key }).collect();
    metered.run(&deletes)
}

/// Each leaf is written whole at the head of a log page; then edits fill that page and two more, the last of them
/// deletes of its keys.
fn one_by_one(metered: &mut Metered) -> Result<(), String> {
    let Mounted { nodes, rows, .. } = opened(&metered.pool)?;
    for (leaf, row) in nodes.iter().zip(&rows).filter(|(node, _)| node.is_leaf()) {
        let put = Command::Put { key: leaf.pairs[0].key, value: 0 };
        // A batch ends with its log page. With the leaf on three of them, the next edit writes it whole.
        for _ in row.pages.len()..MAX_LOG_PAGES {
            metered.run(&[put])?;
        }
        metered.run(&last_edits(leaf, put))?;
    }
    Ok(())
}

/// The edit that writes a leaf whole, and as many as three pages then still hold.
fn last_edits(leaf: &Node, put: Command) -> Vec<Command> {
    let left = MAX_LOG_PAGES * LOG_PAGE_ENTRIES - leaf.change_count();
    let deletes = leaf.pairs.iter().map(|pair| Command::Delete { key: pair.key });
    std::iter::repeat_n(put, 1 + left - leaf.pairs.len()).chain(deletes).collect()
}

#[cfg(test)]
mod tests {
    use super::*;
    use crate::layout::{page_at, MIN_BLOCKS};
    use crate::page::{decode, Content, Entry, Page};

    /// The log entries of a node on its pages.
    fn entry_count(pool: &[u8], id: usize) -> usize {
        let row = &opened(pool).expect("opens").rows[id];
        let entries = |&page: &usize| match decode(page_at(pool, page).expect("there")) {
            Ok(Some(Page { content: Content::Log(entries), .. })) => entries,
            other => panic!("no log page: {other:?}"),
        };
        let of_node = |entry: &Entry| usize::from(entry.id) == id && entry.version == row.version;
        row.pages.iter().flat_map(entries).filter(of_node).count()
    }

    #[test]
    fn leaves_are_empty_and_linked() {
        for emptying in &EMPTYINGS {
            let pool = emptying.pool(MIN_BLOCKS, 18).expect(emptying.name);
            assert_eq!(opened(&pool).expect("opens").nodes.len(), 1 + 18);
        }
        assert!(EMPTYINGS[0].pool(MIN_BLOCKS, 30).is_err(), "more leaves than ids");
    }

    #[test]
    fn leaves_emptied_one_by_one_are_left_with_three_pages_of_entries() {
        let pool = EMPTYINGS[1].pool(MIN_BLOCKS, 18).expect("a pool");
        let nodes = opened(&pool).expect("opens").nodes;
        for id in (0..nodes.len()).filter(|&id| nodes[id].is_leaf()) {
            assert_eq!(entry_count(&pool, id), MAX_LOG_PAGES * LOG_PAGE_ENTRIES, "node {id}");
        }
    }
}
