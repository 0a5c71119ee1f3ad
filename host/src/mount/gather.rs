//! What the pages say of each node.

use super::{Row, Survey};
use crate::account::{Account, Mode};
use crate::layout::MAX_LOG_PAGES;
use crate::node::{Change, Node, Replay};
use crate::page::{entry_start, Content, Page, CONTENT_START};
use crate::refusal::Byte;

/// A node while its pages are gathered.
#[derive(Default)]
pub struct Gathered<'a> {
    pub version: u32,
    pub pages: Vec<usize>,
    pub replay: Replay,
    pub node_page: Option<&'a Node>,
    /// The entry that broke a rule.
    broken_at: Option<Byte>,
}

/// Why the pages of a node make none, and where that shows.
pub struct Broken {
    pub at: Option<Byte>,
    pub why: &'static str,
}

impl Gathered<'_> {
    /// Notes a page; entries of one page come one behind the other.
    fn see_page(&mut self, page: usize) {
        if self.pages.last() != Some(&page) {
            self.pages.push(page);
        }
    }

    fn apply(&mut self, change: Change, at: Byte) {
        self.replay.apply(change);
        if self.replay.is_broken() {
            self.broken_at = self.broken_at.or(Some(at));
        }
    }

    /// The node, or why there is none; and its row, with score 0.
    pub fn finish(self) -> (Result<Node, Broken>, Row) {
        let mode = if self.node_page.is_some() { Mode::Disk } else { Mode::Log };
        let start = self.pages.first().map(|&page| Byte { page, byte: CONTENT_START });
        let node = match self.node_page {
            Some(node) => Ok(node.clone()),
            None if self.version == 0 => Err(Broken { at: None, why: "on no page" }),
            None if self.pages.len() > MAX_LOG_PAGES => Err(Broken { at: start, why: "on more than three log pages" }),
            None => self.replay.finish().map_err(|why| Broken { at: self.broken_at.or(start), why }),
        };
        (node, Row { version: self.version, account: Account { mode, score: 0 }, pages: self.pages })
    }
}

impl Survey {
    /// What the pages say of the greatest version of each node below the count.
    pub(super) fn gather(&self, count: usize) -> Vec<Gathered<'_>> {
        self.gather_up_to(&vec![u32::MAX; count])
    }

    /// What the pages say of each node's greatest version, but of none above the node's ceiling.
    pub fn gather_up_to(&self, ceilings: &[u32]) -> Vec<Gathered<'_>> {
        let mut gathered: Vec<Gathered<'_>> = ceilings.iter().map(|_| Gathered::default()).collect();
        for (id, version) in self.pages.iter().flat_map(|(_, decoded)| decoded.versions()) {
            let id = usize::from(id);
            if ceilings.get(id).is_some_and(|&ceiling| version <= ceiling) {
                gathered[id].version = gathered[id].version.max(version);
            }
        }
        // Pages by sequence number and entries by position: the order in which they count.
        for (page, decoded) in &self.pages {
            take_page(&mut gathered, *page, decoded);
        }
        gathered
    }
}

/// Gives each node what a page has of its greatest version.
fn take_page<'a>(gathered: &mut [Gathered<'a>], page: usize, decoded: &'a Page) {
    match &decoded.content {
        Content::Log(entries) => {
            for (place, entry) in entries.iter().enumerate() {
                if let Some(node) = of_version(gathered, entry.id, entry.version) {
                    node.see_page(page);
                    node.apply(entry.change, Byte { page, byte: entry_start(place) });
                }
            }
        }
        Content::Node { id, node: content } => {
            if let Some(node) = of_version(gathered, *id, decoded.sequence) {
                node.see_page(page);
                node.node_page = Some(content);
            }
        }
        Content::Checkpoint(_) => {}
    }
}

/// A node, if this is its greatest version.
fn of_version<'g, 'a>(gathered: &'g mut [Gathered<'a>], id: u16, version: u32) -> Option<&'g mut Gathered<'a>> {
    gathered.get_mut(usize::from(id)).filter(|node| node.version == version)
}
