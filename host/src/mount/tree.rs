//! The tree that the pages spell: question 7.

use super::checkpoint::NewestCheckpoint;
use super::gather::{Broken, Gathered};
use super::{fault, Mounted, Row, Survey};
use crate::account::{Account, Tariff};
use crate::layout::{node_limit, BLOCK_PAGES};
use crate::node::{Change, Node};
use crate::page::{entry_start, pair_start, Content, Entry, CONTENT_START, LINK_START};
use crate::refusal::{Byte, Fault, Place, Refusal};
use crate::sound::{self, Part};

/// Nodes, their rows, and the tariff.
type SoundTree = (Vec<Node>, Vec<Row>, Tariff);

impl Survey {
    /// What the pages spell, by questions 6 and 7.
    pub(super) fn mounted(&self, faults: &mut Vec<Fault>) -> Option<Mounted> {
        let checkpoint = self.newest_checkpoint(faults)?;
        let (nodes, rows, tariff) = self.sound_tree(&checkpoint, faults)?;
        let (newest, last_sequence) = self.newest()?;
        Some(Mounted {
            current: newest / BLOCK_PAGES,
            written: self.written.clone(),
            last_sequence,
            tariff,
            nodes,
            rows,
            checkpoint_pages: checkpoint.pages,
        })
    }

    /// Question 7: nodes that form a sound tree, their rows, and a tariff in range.
    fn sound_tree(&self, checkpoint: &NewestCheckpoint, faults: &mut Vec<Fault>) -> Option<SoundTree> {
        let found = faults.len();
        let count = checkpoint.scores.len();
        if count > node_limit(self.blocks) {
            faults.push(fault(Refusal::Tree, Place::Pool, "more nodes than the limit"));
        }
        let tariff = checkpoint.check_tariff(faults);
        let finished: Vec<(Result<Node, Broken>, Row)> = self.gather(count).into_iter().map(Gathered::finish).collect();
        self.check_nodes(&finished, faults);
        let tariff = tariff.filter(|_| faults.len() == found)?;
        let (mut nodes, mut rows) = (Vec::with_capacity(count), Vec::with_capacity(count));
        for ((node, row), (score, _)) in finished.into_iter().zip(&checkpoint.scores) {
            nodes.push(node.ok()?);
            rows.push(Row { account: Account { score: *score, ..row.account }, ..row });
        }
        Some((nodes, rows, tariff))
    }

    /// Each node is one, and together they are a tree.
    fn check_nodes(&self, finished: &[(Result<Node, Broken>, Row)], faults: &mut Vec<Fault>) {
        for (id, (node, _)) in finished.iter().enumerate() {
            if let Err(Broken { at, why }) = node {
                faults.push(fault(Refusal::Tree, Place::Node(id, *at), why));
            }
        }
        let nodes: Vec<Option<&Node>> = finished.iter().map(|(node, _)| node.as_ref().ok()).collect();
        for flaw in sound::walk(&nodes).flaws {
            let at = self.byte_of(flaw.id, &finished[flaw.id].1, flaw.part);
            faults.push(fault(Refusal::Tree, Place::Node(flaw.id, at), flaw.why));
        }
    }

    /// Where a part of a node shows: on its node page, or in the last entry that made it.
    fn byte_of(&self, id: usize, row: &Row, part: Part) -> Option<Byte> {
        let of_node = self.pages.iter().rev().filter(|(page, _)| row.pages.contains(page));
        let mut bytes = of_node.filter_map(|(page, decoded)| {
            let byte = match &decoded.content {
                Content::Log(entries) => {
                    let shows = |entry: &Entry| {
                        (usize::from(entry.id), entry.version) == (id, row.version) && is_of(entry.change, part)
                    };
                    entries.iter().rposition(shows).map(entry_start)
                }
                Content::Node { node, .. } => match part {
                    Part::Whole => Some(CONTENT_START),
                    Part::Link => Some(LINK_START),
                    Part::Key(key) => node.pairs.iter().rposition(|pair| pair.key == key).map(pair_start),
                },
                Content::Checkpoint(_) => None,
            };
            byte.map(|byte| Byte { page: *page, byte })
        });
        bytes.next()
    }
}

/// Whether an entry made a part of a node.
fn is_of(change: Change, part: Part) -> bool {
    match (change, part) {
        (_, Part::Whole) => true,
        (Change::Put(pair), Part::Key(key)) => pair.key == key,
        (Change::Link(..), Part::Link) => true,
        _ => false,
    }
}
