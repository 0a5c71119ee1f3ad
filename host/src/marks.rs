//! What each page of a pool is, at a glance.

use crate::layout::PAGE_BYTES;
use crate::mount::{self, Mounted};
use crate::page::{examine, Content, Reading};

/// A page at a glance.
#[derive(Clone, Copy, PartialEq, Eq, Debug)]
pub struct Mark {
    pub kind: Kind,
    /// Whether some node's greatest version or the newest checkpoint lies on it; not known without a tree.
    pub live: Option<bool>,
    /// 0 if it is blank or its number cannot be read.
    pub sequence: u32,
}

#[derive(Clone, Copy, PartialEq, Eq, Debug)]
pub enum Kind {
    Blank,
    /// It does not check.
    Broken,
    Log,
    Node,
    Checkpoint,
}

impl Kind {
    /// All kinds, in the order of legends.
    pub const ALL: [Kind; 5] = [Kind::Log, Kind::Node, Kind::Checkpoint, Kind::Blank, Kind::Broken];

    pub fn name(self) -> &'static str {
        match self {
            Kind::Blank => "blank",
            Kind::Broken => "does not check",
            Kind::Log => "log page",
            Kind::Node => "node page",
            Kind::Checkpoint => "checkpoint page",
        }
    }
}

impl Mark {
    /// The page in a line.
    pub fn words(&self, page: usize) -> String {
        let state = match (self.kind, self.live) {
            (Kind::Blank | Kind::Broken, _) | (_, None) => "",
            (_, Some(true)) => ", live",
            (_, Some(false)) => ", dead",
        };
        let sequence = if self.sequence > 0 { format!(", sequence number {}", self.sequence) } else { String::new() };
        format!("page {page}: {}{state}{sequence}", self.kind.name())
    }

    /// The page as one letter: a capital is live.
    pub fn letter(&self) -> char {
        let letter = match self.kind {
            Kind::Blank => '.',
            Kind::Broken => '!',
            Kind::Log => 'l',
            Kind::Node => 'n',
            Kind::Checkpoint => 'c',
        };
        if self.live == Some(true) {
            letter.to_ascii_uppercase()
        } else {
            letter
        }
    }
}

/// The mark of every page; where the pool spells no tree nothing is known to be live.
pub fn marks(pool: &[u8]) -> Vec<Mark> {
    let mut live = vec![None; pool.len() / PAGE_BYTES];
    if let Some(mounted) = mount::examine(pool).mounted {
        live.fill(Some(false));
        live_pages(&mounted).for_each(|page| live[page] = Some(true));
    }
    pool.chunks_exact(PAGE_BYTES).zip(live).map(|(bytes, live)| mark(bytes, live)).collect()
}

fn live_pages(mounted: &Mounted) -> impl Iterator<Item = usize> + '_ {
    let of_nodes = mounted.rows.iter().flat_map(|row| &row.pages);
    of_nodes.chain(&mounted.checkpoint_pages).copied()
}

fn mark(bytes: &[u8], live: Option<bool>) -> Mark {
    let Reading { page, flaws } = examine(bytes);
    let sequence = page.as_ref().map_or(0, |page| page.sequence);
    let kind = match page.map(|page| page.content) {
        _ if !flaws.is_empty() => Kind::Broken,
        None => Kind::Blank,
        Some(Content::Log(_)) => Kind::Log,
        Some(Content::Node { .. }) => Kind::Node,
        Some(Content::Checkpoint(_)) => Kind::Checkpoint,
    };
    Mark { kind, live, sequence }
}

/// How many pages are live, and how many are written.
pub fn counts(marks: &[Mark]) -> (usize, usize) {
    let live = marks.iter().filter(|mark| mark.live == Some(true)).count();
    (live, marks.iter().filter(|mark| mark.kind != Kind::Blank).count())
}
