//! What the ceilings of a batch met.

use crate::command::Answer;
use crate::node::Node;
use crate::tree::Step;

/// Ceilings, counted by what they met.
#[derive(Clone, PartialEq, Eq, Debug, Default)]
pub struct Ceilings {
    pub all: u64,
    /// Answered with the very key.
    pub equal: u64,
    /// Answered from a later leaf than the key's own.
    pub in_later_leaf: u64,
    /// Of these, from behind a leaf without a key, which may be the key's own.
    pub through_empty_leaf: u64,
    /// No key was at or above.
    pub none: u64,
}

impl Ceilings {
    /// Counts a ceiling by its answer and by the nodes that it reads.
    pub(super) fn count(&mut self, key: u32, answer: Option<&Answer>, steps: &[Step], nodes: &[Node]) {
        let read: Vec<&Node> = steps.iter().map(|step| &nodes[step.id]).filter(|node| node.is_leaf()).collect();
        self.all += 1;
        match answer {
            Some(Answer::Ceiling(pair)) => {
                self.equal += u64::from(pair.key == key);
                self.in_later_leaf += u64::from(read.len() > 1);
                self.through_empty_leaf += u64::from(read.iter().any(|leaf| leaf.pairs.is_empty()));
            }
            _ => self.none += 1,
        }
    }

    pub fn add(&mut self, other: &Ceilings) {
        self.all += other.all;
        self.equal += other.equal;
        self.in_later_leaf += other.in_later_leaf;
        self.through_empty_leaf += other.through_empty_leaf;
        self.none += other.none;
    }
}
