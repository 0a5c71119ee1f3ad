//! The pages of a foreign pool, and where they lie.

use std::collections::VecDeque;

use super::content::{number_pages, random_sequences};
use super::spelling::Spelling;
use super::PoolStyle;
use crate::account::Mode;
use crate::layout::{page_range, BLANK, BLOCK_BYTES, BLOCK_PAGES, LOG_PAGE_ENTRIES, MAX_LOG_PAGES};
use crate::node::Change;
use crate::page::{Checkpoint, Content, Page, Score};
use crate::random::Random;

/// A page before it has a sequence number: entries have no version yet.
#[derive(Clone)]
pub(super) enum PlannedPage {
    Log(Vec<(usize, Change)>),
    /// The node page of a node.
    Node(usize),
    DeadLog,
    DeadNode,
    DeadCheckpoint,
}

/// A pool's pages by sequence number, the newest last, and the index of each in the pool.
pub(super) struct Draft {
    pub blocks: usize,
    pub pages: Vec<Page>,
    pub indexes: Vec<usize>,
}

impl Draft {
    pub fn of(random: &mut Random, spelling: &Spelling, style: PoolStyle) -> Draft {
        use PlannedPage::{DeadCheckpoint, DeadLog, DeadNode};
        let scores = random_scores(random, spelling);
        let checkpoint = Checkpoint::pages(spelling.tariff, &scores, spelling.nodes.len() as u16);
        let mut planned = plan_log_pages(random, spelling, style);
        let in_disk_mode = (0..spelling.nodes.len()).filter(|&id| spelling.accounts[id].mode == Mode::Disk);
        planned.extend(in_disk_mode.map(PlannedPage::Node));
        let most = BLOCK_PAGES * (style.blocks - 1) - checkpoint.len();
        let room = most.saturating_sub(planned.len());
        let dead = if style.is_tight() { room } else { random.pick(&[0, 1, room / 8, room / 2, room]).min(room) };
        planned.extend((0..dead).map(|_| random.pick(&[DeadLog, DeadNode, DeadCheckpoint])));
        let planned = shuffle_keeping_logs(random, planned);
        let sequences = random_sequences(random, planned.len() + checkpoint.len(), style);
        let pages = number_pages(random, spelling, &planned, checkpoint, &sequences);
        let indexes = random_indexes(random, style.blocks, pages.len());
        Draft { blocks: style.blocks, pages, indexes }
    }

    /// The pool's bytes.
    pub fn bytes(&self) -> Vec<u8> {
        let mut pool = vec![BLANK; self.blocks * BLOCK_BYTES];
        for (decoded, &page) in self.pages.iter().zip(&self.indexes) {
            pool[page_range(page)].copy_from_slice(&decoded.encode());
        }
        pool
    }

    /// One of the pages that pass a test.
    pub fn pick_page(&self, random: &mut Random, test: impl Fn(&Page) -> bool) -> Option<usize> {
        let found: Vec<usize> = (0..self.pages.len()).filter(|&at| test(&self.pages[at])).collect();
        (!found.is_empty()).then(|| random.pick(&found))
    }

    /// The greatest version of a node, 0 if it lies on no page.
    pub fn greatest_version(&self, id: u16) -> u32 {
        let versions = self.pages.iter().flat_map(Page::versions).filter(|&(of, _)| of == id);
        versions.map(|(_, version)| version).max().unwrap_or(0)
    }

    /// The node count, which the newest page has.
    pub fn node_count(&self) -> u16 {
        match &self.pages[self.pages.len() - 1].content {
            Content::Checkpoint(Checkpoint { count: Some(count), .. }) => *count,
            other => panic!("a draft ends with its count, not {other:?}"),
        }
    }
}

fn random_scores(random: &mut Random, spelling: &Spelling) -> Vec<Score> {
    let accounts = spelling.accounts.iter().enumerate();
    let mut scores: Vec<Score> = accounts.map(|(id, account)| Score { id: id as u16, score: account.score }).collect();
    if random.once_in(2) {
        random.shuffle(&mut scores);
    }
    scores
}

/// Lays the histories of log nodes on log pages, each node on three at most.
fn plan_log_pages(random: &mut Random, spelling: &Spelling, style: PoolStyle) -> Vec<PlannedPage> {
    let mut pages: Vec<Vec<(usize, Change)>> = Vec::new();
    let shared = !style.is_tight() && random.once_in(2);
    let in_log_mode = (0..spelling.nodes.len()).filter(|&id| spelling.accounts[id].mode == Mode::Log);
    for id in in_log_mode {
        let mut first_free = 0;
        for run in random_runs(random, &spelling.histories[id], style.is_tight()) {
            let fits = |entries: &Vec<(usize, Change)>| entries.len() + run.len() <= LOG_PAGE_ENTRIES;
            let found = (first_free..pages.len()).filter(|_| shared).find(|&at| fits(&pages[at]));
            let at = found.unwrap_or_else(|| {
                pages.push(Vec::new());
                pages.len() - 1
            });
            merge_run(random, &mut pages[at], id, run);
            first_free = at + 1;
        }
    }
    pages.into_iter().map(PlannedPage::Log).collect()
}

/// Cuts a history into one to three runs that each fit a page.
fn random_runs<'a>(random: &mut Random, history: &'a [Change], many: bool) -> Vec<&'a [Change]> {
    let least = history.len().div_ceil(LOG_PAGE_ENTRIES);
    let most = MAX_LOG_PAGES.min(history.len());
    let count = if many { most } else { random.between(least, most.max(least)) };
    history.chunks(history.len().div_ceil(count)).collect()
}

/// Puts a run among the entries of a page, its own order kept.
fn merge_run(random: &mut Random, entries: &mut Vec<(usize, Change)>, id: usize, run: &[Change]) {
    let mut at = random.between(0, entries.len());
    for &change in run {
        entries.insert(at, (id, change));
        at = random.between(at + 1, entries.len());
    }
}

/// Any order, but that the log pages of live nodes stay in theirs.
fn shuffle_keeping_logs(random: &mut Random, mut planned: Vec<PlannedPage>) -> Vec<PlannedPage> {
    let is_log = |page: &PlannedPage| matches!(page, PlannedPage::Log(_));
    let mut logs: VecDeque<PlannedPage> = planned.iter().filter(|page| is_log(page)).cloned().collect();
    random.shuffle(&mut planned);
    for page in planned.iter_mut().filter(|page| is_log(page)) {
        *page = logs.pop_front().expect("as many as before");
    }
    planned
}

/// An index for each page: any blocks, one partly written at most, which holds the newest page.
fn random_indexes(random: &mut Random, blocks: usize, count: usize) -> Vec<usize> {
    let mut order: Vec<usize> = (0..blocks).collect();
    if random.once_in(2) {
        random.shuffle(&mut order);
    }
    let index = |at: usize| order[at / BLOCK_PAGES] * BLOCK_PAGES + at % BLOCK_PAGES;
    let mut indexes: Vec<usize> = (0..count).map(index).collect();
    if random.once_in(2) {
        // The newest page keeps to the last block used.
        let partly = count % BLOCK_PAGES;
        random.shuffle(&mut indexes);
        let last_block = order[(count - 1) / BLOCK_PAGES];
        let within = indexes.iter().position(|&page| page / BLOCK_PAGES == last_block).expect("a page is in it");
        if partly != 0 {
            indexes.swap(within, count - 1);
        }
    }
    indexes
}
