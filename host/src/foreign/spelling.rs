//! What a foreign pool spells.

use super::tree::random_tree;
use super::{random_tariff, PoolStyle};
use crate::account::{Account, Mode};
use crate::layout::MAX_KEYS;
use crate::node::{Change, Node, Pair};
use crate::random::Random;

/// What a pool spells: tree, modes, scores, and the history of each node's log entries.
pub(super) struct Spelling {
    pub tariff: [u32; 8],
    pub nodes: Vec<Node>,
    pub accounts: Vec<Account>,
    /// The changes that make a log node, in order.
    pub histories: Vec<Vec<Change>>,
}

impl Spelling {
    pub fn random(random: &mut Random, style: PoolStyle) -> Spelling {
        let tariff = random_tariff(random);
        let nodes = random_tree(random, style);
        let in_log = random.pick(&[0, 50, 90, 100]);
        let score_end = (tariff[6] + tariff[7]) as usize;
        let accounts = nodes
            .iter()
            .map(|_| Account {
                mode: if style.is_log_only() || random.below(100) < in_log { Mode::Log } else { Mode::Disk },
                score: random.below(score_end) as u32,
            })
            .collect();
        let histories = nodes.iter().map(|node| random_history(random, node)).collect();
        Spelling { tariff, nodes, accounts, histories }
    }

    /// One of the ids whose node passes a test.
    pub fn pick_node(&self, random: &mut Random, test: impl Fn(usize, &Node) -> bool) -> Option<usize> {
        let ids: Vec<usize> = (0..self.nodes.len()).filter(|&id| test(id, &self.nodes[id])).collect();
        (!ids.is_empty()).then(|| random.pick(&ids))
    }

    /// Makes the nodes' histories anew, after a flaw in the nodes.
    pub fn rebuild_histories(&mut self) {
        self.accounts.resize(self.nodes.len(), Account::default());
        self.histories = self.nodes.iter().map(|node| node.changes().collect()).collect();
    }
}

/// Changes that end in a node's content, with detours that keep to 24 keys.
fn random_history(random: &mut Random, node: &Node) -> Vec<Change> {
    let mut changes: Vec<Change> = node.changes().collect();
    if random.once_in(2) {
        random.shuffle(&mut changes);
    }
    for _ in 0..random.pick(&[0, 0, 2, 8]) {
        // Everything that a detour does is undone by the change in front of which it goes, or has no effect.
        let at = random.below(changes.len());
        let detour = match (changes[at], random.below(3)) {
            (Change::Put(pair), 0) => Change::Put(Pair { pointer: random.next_u32(), ..pair }),
            (Change::Put(pair), _) => Change::Delete { key: pair.key },
            (Change::Link(shape, _), _) => Change::Link(shape, random.next_u32()),
            (Change::Delete { key }, _) => Change::Delete { key },
        };
        changes.insert(at, detour);
    }
    let spare = (0..=u32::MAX).find(|&key| node.find(key).is_err());
    if let Some(key) = spare.filter(|_| node.pairs.len() < MAX_KEYS && random.once_in(3)) {
        let from = random.between(0, changes.len());
        changes.insert(from, Change::Put(Pair { key, pointer: 0 }));
        let to = random.between(from + 1, changes.len());
        changes.insert(to, Change::Delete { key });
    }
    changes
}
