//! Pools that obey the layout but that no book of ours would make, and such pools with one flaw.
//!
//! A pool is drafted in three stages, and a flaw is put into one of them: what it spells ([`Spelling`]),
//! its pages by sequence number and where they lie ([`Draft`]), and its bytes.

mod content;
mod draft;
pub mod flaw;
mod spelling;
mod tree;

use crate::account::Tariff;
use crate::layout::{node_limit, MAX_TARIFF};
use crate::random::Random;
use crate::reference::PaperBook;
use draft::Draft;
use spelling::Spelling;

/// What a foreign pool should be like.
#[derive(Clone, Copy, Debug)]
pub struct PoolStyle {
    pub blocks: usize,
    pub build: Build,
}

#[derive(Clone, Copy, PartialEq, Eq, Debug)]
pub enum Build {
    Any,
    /// As many nodes as may be, each on as many pages as may be, one block blank.
    Tight,
    /// A full root over full branches with hardly an id to spare; from [`BRINK_BLOCKS`] blocks on.
    Brink,
    /// As many levels as may be, each node in log mode; one full branch stands over another. From [`DEEP_BLOCKS`]
    /// blocks on.
    Deep,
    /// Keys, values and sequence numbers whose bytes are mostly FF, each node in log mode: the pages' sums wrap.
    High,
}

/// Blocks of the smallest pool whose limit a full root over a full branch comes near.
pub const BRINK_BLOCKS: usize = 12;

/// Blocks of the smallest pool that holds a deep tree and the nodes of a split of its full branches.
pub const DEEP_BLOCKS: usize = 63;

impl PoolStyle {
    fn is_tight(&self) -> bool {
        self.build == Build::Tight
    }

    fn is_high(&self) -> bool {
        self.build == Build::High
    }

    /// Whether no node has a page of its own.
    fn is_log_only(&self) -> bool {
        matches!(self.build, Build::Tight | Build::Deep | Build::High)
    }
}

/// A foreign pool, and what it spells.
pub struct Foreign {
    pub pool: Vec<u8>,
    pub paper: PaperBook,
}

/// Makes a foreign pool that opens.
pub fn make(random: &mut Random, style: PoolStyle) -> Foreign {
    let spelling = Spelling::random(random, style);
    let draft = Draft::of(random, &spelling, style);
    let tariff = Tariff::from_numbers(spelling.tariff).expect("a random tariff is in range");
    let paper =
        PaperBook { limit: node_limit(style.blocks), tariff, nodes: spelling.nodes, accounts: spelling.accounts };
    Foreign { pool: draft.bytes(), paper }
}

/// A random tariff in range, extremes among them.
pub fn random_tariff(random: &mut Random) -> [u32; 8] {
    let most = random.pick(&[1, 4, 30, 1000, MAX_TARIFF as usize]);
    let extreme = random.once_in(4);
    let mut number = |least: usize| match extreme {
        true => random.pick(&[least as u32, 1, MAX_TARIFF]),
        false => random.between(least, most) as u32,
    };
    std::array::from_fn(|at| number(usize::from(at >= 6)))
}
