//! Mounting: what a closed pool spells, or which of questions 5 to 8 refuses it.
//!
//! One pass decodes the pages, one sort orders them by sequence number, one pass in that order
//! gathers each node's content.

mod checkpoint;
mod gather;
mod survey;
mod tree;

use crate::account::{Account, Tariff};
use crate::layout::{block_count, MAX_SEQUENCE};
use crate::node::Node;
use crate::refusal::{Fault, Place, Refusal};

pub use gather::{Broken, Gathered};
pub use survey::Survey;

/// What a mounted pool spells.
#[derive(Clone, Debug)]
pub struct Mounted {
    /// Written pages of each block.
    pub written: Vec<usize>,
    /// The block of the newest page.
    pub current: usize,
    /// The greatest sequence number.
    pub last_sequence: u32,
    pub tariff: Tariff,
    /// Nodes and their rows, by id.
    pub nodes: Vec<Node>,
    pub rows: Vec<Row>,
    /// The pages of the newest checkpoint, which nothing needs once a batch has begun.
    pub checkpoint_pages: Vec<usize>,
}

/// Where a node lies, and its account.
#[derive(Clone, PartialEq, Eq, Debug, Default)]
pub struct Row {
    /// The node's greatest version.
    pub version: u32,
    pub account: Account,
    /// The pages with that version, each once: log pages, or the one node page.
    pub pages: Vec<usize>,
}

/// Mounts a pool for a batch: question 1 and questions 5 to 8.
pub fn mount(pool: &[u8]) -> Result<Mounted, Fault> {
    examine(pool).opened(|_| true)
}

/// Reads what a pool spells, also one whose sequence numbers are used up and that question 8 refuses.
pub fn read(pool: &[u8]) -> Result<Mounted, Fault> {
    examine(pool).opened(|fault| fault.refusal != Refusal::SequenceNumbers)
}

/// All that can be told of a pool.
pub struct Examined {
    /// Every fault, by question: the first decides the number.
    pub faults: Vec<Fault>,
    /// What the pages that check spell, if they are a whole checkpoint and a sound tree, whatever else is wrong.
    pub mounted: Option<Mounted>,
}

impl Examined {
    fn opened(self, counts: impl Fn(&Fault) -> bool) -> Result<Mounted, Fault> {
        match (self.faults.into_iter().find(counts), self.mounted) {
            (Some(fault), _) => Err(fault),
            (None, Some(mounted)) => Ok(mounted),
            (None, None) => unreachable!("a pool without a fault is mounted"),
        }
    }
}

/// Asks all questions of a pool, and goes on behind a fault where that can be told.
///
/// A page that does not check is left out from question 6 on.
pub fn examine(pool: &[u8]) -> Examined {
    let mut faults = Vec::new();
    let Some(blocks) = block_count(pool.len()) else {
        return Examined {
            faults: vec![fault(Refusal::PoolLength, Place::Pool, "no length of a pool")],
            mounted: None,
        };
    };
    let survey = Survey::of(pool, blocks);
    survey.check_pages(&mut faults);
    let mounted = survey.mounted(&mut faults);
    if survey.newest().is_some_and(|(_, sequence)| sequence > MAX_SEQUENCE) {
        faults.push(fault(Refusal::SequenceNumbers, Place::Pool, "sequence numbers are used up"));
    }
    Examined { faults, mounted }
}

fn fault(refusal: Refusal, at: Place, why: &'static str) -> Fault {
    Fault { refusal, at, why }
}
