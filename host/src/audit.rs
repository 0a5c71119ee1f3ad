//! Watches a call from outside: what the pages and the log buffer say after every event.
//!
//! The audit decodes the bytes itself and never sees the store's rows. After every page written, copied
//! or erased and after every node request it asks that no node lies on more than three log pages and
//! that every node has the mode of the reference model. It works out for itself where each page goes,
//! which block is compacted, which of its pages are live, and which sequence number comes next.

use std::collections::HashSet;

use crate::account::{Mode, Request, Served};
use crate::layout::{block_range, page_range, BLANK, BLOCK_PAGES, LOG_PAGE_ENTRIES, MAX_LOG_PAGES, PAGE_BYTES};
use crate::node::Change;
use crate::observe::{Event, Observer, State};
use crate::page::{decode, is_blank, sums_wrap, Content, Entry, Page};
use crate::reference::Line;

/// What was seen how often.
#[derive(Clone, Debug, Default, PartialEq, Eq)]
pub struct Seen {
    pub states: u64,
    pub requests: u64,
    pub pages_written: u64,
    /// Of these, the pages whose sum b or a passes its modulus.
    pub sums_wrapped: [u64; 2],
    pub pages_copied: u64,
    /// Blocks erased by compaction, which is once for each.
    pub compactions: u64,
    pub nodes_created: u64,
    /// Rewrites that stay: one for each split of a leaf or a branch, the root's included.
    pub splits: u64,
    pub three_page_edits: u64,
    pub switches_to_disk: u64,
    pub switches_to_log: u64,
}

impl Seen {
    fn count(&mut self, request: Request, served: Served) {
        self.requests += 1;
        self.splits += u64::from(request == Request::Rewrite);
        if served.switched {
            match served.account.mode {
                Mode::Disk => self.switches_to_disk += 1,
                Mode::Log => self.switches_to_log += 1,
            }
        }
    }

    pub fn add(&mut self, other: &Seen) {
        self.states += other.states;
        self.requests += other.requests;
        self.pages_written += other.pages_written;
        add_wraps(&mut self.sums_wrapped, other.sums_wrapped);
        self.pages_copied += other.pages_copied;
        self.compactions += other.compactions;
        self.nodes_created += other.nodes_created;
        self.splits += other.splits;
        self.three_page_edits += other.three_page_edits;
        self.switches_to_disk += other.switches_to_disk;
        self.switches_to_log += other.switches_to_log;
    }
}

/// Adds how often the sums b and a wrapped.
pub fn add_wraps<T: Into<u64>>(counts: &mut [u64; 2], more: [T; 2]) {
    for (count, more) in counts.iter_mut().zip(more) {
        *count += more.into();
    }
}

/// Where a node's greatest version on pages lies.
#[derive(Clone, Debug, Default, PartialEq, Eq)]
struct Location {
    version: u32,
    on_node_page: bool,
    /// The pages by sequence number, so that a copy is the same page.
    sequences: Vec<u32>,
}

impl Location {
    fn see(&mut self, version: u32, on_node_page: bool, sequence: u32) {
        if version > self.version {
            *self = Location { version, on_node_page, sequences: vec![sequence] };
        } else if version == self.version && !self.sequences.contains(&sequence) {
            self.sequences.push(sequence);
        }
    }

    /// The node's mode, and its log pages with the one that the buffer will become, where its greatest
    /// version in the buffer is this one.
    fn with_buffer(&self, in_buffer: u32) -> (Mode, usize) {
        match in_buffer {
            newer if newer > self.version => (Mode::Log, 1),
            _ if self.on_node_page => (Mode::Disk, 0),
            same if same == self.version => (Mode::Log, self.sequences.len() + 1),
            _ => (Mode::Log, self.sequences.len()),
        }
    }
}

/// An observer that holds a call to what document 01 says of every state passed.
pub struct Audit<'a> {
    pool: Vec<u8>,
    pages: Vec<Option<Page>>,
    locations: Vec<Location>,
    /// The modes of the reference model by now.
    modes: Vec<Mode>,
    /// The last sequence number taken, by a page or a version.
    last_sequence: u32,
    /// The block last written.
    current: usize,
    /// The copies of a compaction until its block is erased.
    copies: Vec<(usize, usize)>,
    /// The pages of the checkpoint being written, by sequence number.
    checkpoint_sequences: Vec<u32>,
    /// The entries of a log page just written, until it is seen what came after it.
    forced: Option<usize>,
    /// Kept between checks for its memory alone.
    in_buffer: Vec<u32>,
    /// The lines that the reference model has for the requests still to come.
    lines: std::slice::Iter<'a, Line>,
    pub seen: Seen,
    /// The first thing that was wrong.
    pub failure: Option<String>,
}

impl<'a> Audit<'a> {
    /// Watches a batch on a pool whose nodes have these modes, and for which the reference model has these lines.
    pub fn new(pool: &[u8], modes: Vec<Mode>, limit: usize, lines: &'a [Line]) -> Audit<'a> {
        let pages: Vec<Option<Page>> =
            pool.chunks_exact(PAGE_BYTES).map(|bytes| decode(bytes).ok().flatten()).collect();
        let mut audit = Audit {
            pool: pool.to_vec(),
            pages,
            locations: Vec::new(),
            modes,
            last_sequence: 0,
            current: 0,
            copies: Vec::new(),
            checkpoint_sequences: Vec::new(),
            forced: None,
            in_buffer: Vec::new(),
            lines: lines.iter(),
            seen: Seen::default(),
            failure: None,
        };
        audit.locations = audit.locate(limit);
        let pages = audit.pages.iter().enumerate();
        let written = pages.filter_map(|(page, decoded)| Some((decoded.as_ref()?.sequence, page)));
        let (sequence, newest) = written.max().unwrap_or_default();
        (audit.last_sequence, audit.current) = (sequence, newest / BLOCK_PAGES);
        audit
    }

    /// What is still wrong when the call has ended: a line never served, a byte never told of.
    pub fn finish(mut self, pool: &[u8]) -> Result<Seen, String> {
        if self.lines.next().is_some() {
            self.fail("a node request of the reference model was not served".to_string());
        }
        if self.pool != pool {
            self.fail("bytes changed that no event told of".to_string());
        }
        self.failure.map_or(Ok(self.seen), Err)
    }

    fn fail(&mut self, why: String) {
        self.failure.get_or_insert(why);
    }

    /// Where each node lies by the pages alone.
    fn locate(&self, limit: usize) -> Vec<Location> {
        let mut locations = vec![Location::default(); limit];
        for page in self.pages.iter().flatten() {
            note_page(&mut locations, page);
        }
        locations
    }

    /// Takes a page's bytes over from the pool; it must have been blank, and the first blank one of its block.
    fn take_page(&mut self, page: usize, pool: &[u8]) {
        let range = page_range(page);
        if !is_blank(&self.pool[range.clone()]) {
            self.fail(format!("page {page} was written without being erased"));
        }
        if !page.is_multiple_of(BLOCK_PAGES) && self.pages[page - 1].is_none() {
            self.fail(format!("page {page} was written behind a blank one"));
        }
        self.pool[range.clone()].copy_from_slice(&pool[range.clone()]);
        match decode(&pool[range]) {
            Ok(Some(decoded)) => {
                note_page(&mut self.locations, &decoded);
                self.pages[page] = Some(decoded);
            }
            other => self.fail(format!("page {page} was written as {other:?}")),
        }
    }

    /// A new page: it stands where document 01 says and has the next sequence number.
    fn written(&mut self, page: usize, state: &State<'_>) {
        let next_page = self.next_page();
        if Some(page) != next_page {
            self.fail(format!("page {page} was written, {next_page:?} comes next"));
        }
        self.take_page(page, state.pool);
        self.current = page / BLOCK_PAGES;
        let Some(decoded) = self.pages[page].clone() else { return };
        let entries = match &decoded.content {
            Content::Log(entries) => entries.as_slice(),
            _ => &[],
        };
        self.check_forced(entries);
        self.forced = self.forced.or((!entries.is_empty()).then_some(entries.len()));
        let greatest = entries.iter().chain(state.buffer).map(|entry| entry.version).max().unwrap_or(0);
        let (sequence, next) = (decoded.sequence, self.last_sequence.max(greatest) + 1);
        if matches!(decoded.content, Content::Checkpoint(_)) {
            self.checkpoint_sequences.push(sequence);
        }
        if sequence != next {
            self.fail(format!("page {page} has sequence number {sequence}, {next} comes next"));
        }
        self.last_sequence = sequence;
    }

    /// A log page was written because the group after it did not fit; `entries` begin with that group.
    ///
    /// A group ends with its link; an edit is one entry. At closing nothing comes after the page.
    fn check_forced(&mut self, entries: &[Entry]) {
        if entries.is_empty() {
            return;
        }
        let Some(before) = self.forced.take() else { return };
        let link = entries.iter().position(|entry| matches!(entry.change, Change::Link(..)));
        let group = link.map_or(1, |at| at + 1);
        if before + group <= LOG_PAGE_ENTRIES {
            self.fail(format!("a log page of {before} entries was written, though {group} more would have fitted"));
        }
    }

    fn pages_in(&self, block: usize) -> &[Option<Page>] {
        &self.pages[block * BLOCK_PAGES..][..BLOCK_PAGES]
    }

    /// Written pages of a block.
    fn written_in(&self, block: usize) -> usize {
        self.pages_in(block).iter().flatten().count()
    }

    /// Blank blocks from the one behind the current block upwards and round.
    fn blank_blocks(&self) -> Vec<usize> {
        let blocks = self.pages.len() / BLOCK_PAGES;
        (1..=blocks).map(|ahead| (self.current + ahead) % blocks).filter(|&block| self.written_in(block) == 0).collect()
    }

    /// The next page to be written, if no compaction is due before it.
    fn next_page(&self) -> Option<usize> {
        match self.written_in(self.current) {
            BLOCK_PAGES => {
                let blanks = self.blank_blocks();
                (blanks.len() >= 2).then(|| blanks[0] * BLOCK_PAGES)
            }
            written => Some(self.current * BLOCK_PAGES + written),
        }
    }

    fn copied(&mut self, from: usize, to: usize, pool: &[u8]) {
        self.take_page(to, pool);
        self.copies.push((from, to));
        if self.pool[page_range(from)] != self.pool[page_range(to)] {
            self.fail(format!("page {from} was changed when copied to {to}"));
        }
    }

    /// A block was erased: it was due, it was the right one, and its live pages were copied in order.
    fn erased(&mut self, block: usize, state: &State<'_>) {
        let copies = std::mem::take(&mut self.copies);
        for &(_, to) in &copies {
            // As it was before the copies.
            self.pages[to] = None;
        }
        let blanks = self.blank_blocks();
        if self.written_in(self.current) != BLOCK_PAGES || blanks.len() != 1 {
            self.fail("a compaction that was not due".to_string());
            return;
        }
        let live = self.live_pages(state);
        let live_in = |block: usize| live.iter().filter(|&&page| page / BLOCK_PAGES == block).count();
        let written = (0..self.pages.len() / BLOCK_PAGES).filter(|&block| block != blanks[0]);
        let fewest = written.min_by_key(|&block| (live_in(block), block));
        if fewest != Some(block) {
            self.fail(format!("block {block} was erased, {fewest:?} has fewest live pages"));
        }
        let moved = live.iter().filter(|&&page| page / BLOCK_PAGES == block).copied().zip(blanks[0] * BLOCK_PAGES..);
        if !moved.eq(copies.iter().copied()) {
            self.fail(format!("other pages of block {block} were copied than its live ones in order"));
        }
        for &(from, to) in &copies {
            self.pages[to] = self.pages[from].clone();
        }
        self.forget_block(block, state);
        self.current = blanks[0];
    }

    /// The live pages, ascending: pages of greatest versions and of the checkpoint being written.
    fn live_pages(&self, state: &State<'_>) -> Vec<usize> {
        let mut sequences: HashSet<u32> = self.checkpoint_sequences.iter().copied().collect();
        for (id, location) in self.locations.iter().enumerate().take(state.count) {
            if buffer_version(state.buffer, id).is_none_or(|version| version <= location.version) {
                sequences.extend(&location.sequences);
            }
        }
        let is_live = |page: &usize| self.pages[*page].as_ref().is_some_and(|page| sequences.contains(&page.sequence));
        (0..self.pages.len()).filter(is_live).collect()
    }

    /// Forgets a block; no page of a greatest version may be lost with it.
    ///
    /// A node whose greatest version is in the log buffer alone has no live page.
    fn forget_block(&mut self, block: usize, state: &State<'_>) {
        let range = block_range(block);
        self.pool[range.clone()].fill(BLANK);
        if !is_blank(&state.pool[range]) {
            self.fail(format!("block {block} is not blank after its erase"));
        }
        self.pages[block * BLOCK_PAGES..][..BLOCK_PAGES].fill(None);
        let before = std::mem::take(&mut self.locations);
        self.locations = self.locate(before.len());
        for (id, before) in before.iter().enumerate().take(state.count) {
            let in_buffer = buffer_version(state.buffer, id).is_some_and(|version| version > before.version);
            if !in_buffer && !same_pages(&self.locations[id], before) {
                self.fail(format!("a live page of node {id} was erased with block {block}"));
            }
        }
    }

    /// An edit that wrote the whole content: its node lay on three pages.
    fn wrote_whole(&mut self, id: usize) {
        self.seen.three_page_edits += 1;
        let pages = self.locations[id].sequences.len();
        if pages != MAX_LOG_PAGES || self.locations[id].on_node_page {
            self.fail(format!("an edit wrote node {id} whole, which lay on {pages} pages"));
        }
    }

    /// Asks of every node that it lies on three log pages at most and, after a request, that it has the
    /// reference model's mode.
    fn check_nodes(&mut self, state: &State<'_>, modes_too: bool) {
        // The greatest version of each node in the log buffer, 0 for none.
        let mut in_buffer = std::mem::take(&mut self.in_buffer);
        in_buffer.clear();
        in_buffer.resize(state.count, 0);
        for entry in state.buffer {
            self.last_sequence = self.last_sequence.max(entry.version);
            match in_buffer.get_mut(usize::from(entry.id)) {
                Some(version) => *version = entry.version.max(*version),
                None => self.fail(format!("the buffer has an entry of node {}, which does not exist", entry.id)),
            }
        }
        for (id, &version) in in_buffer.iter().enumerate() {
            let (mode, pages) = self.locations[id].with_buffer(version);
            if mode == Mode::Log && pages > MAX_LOG_PAGES {
                self.fail(format!("node {id} lies on {pages} log pages, one to come included"));
            }
            if modes_too && self.modes.get(id) != Some(&mode) {
                self.fail(format!("node {id} is in {mode:?} mode, in the reference model in {:?}", self.modes.get(id)));
            }
        }
        self.in_buffer = in_buffer;
    }
}

/// Notes where a page's nodes lie.
fn note_page(locations: &mut [Location], page: &Page) {
    let on_node_page = matches!(page.content, Content::Node { .. });
    for (id, version) in page.versions() {
        if let Some(location) = locations.get_mut(usize::from(id)) {
            location.see(version, on_node_page, page.sequence);
        }
    }
}

/// The greatest version of a node's entries in the log buffer.
fn buffer_version(buffer: &[Entry], id: usize) -> Option<u32> {
    buffer.iter().filter(|entry| usize::from(entry.id) == id).map(|entry| entry.version).max()
}

/// Says whether two locations are the same pages, in whatever order they were met.
fn same_pages(one: &Location, other: &Location) -> bool {
    one.version == other.version
        && one.sequences.len() == other.sequences.len()
        && one.sequences.iter().all(|sequence| other.sequences.contains(sequence))
}

impl Audit<'_> {
    /// Holds a node request against the reference model's next line.
    fn served(&mut self, id: usize, request: Request, served: Served, count: usize) {
        self.seen.count(request, served);
        match self.lines.next() {
            Some(line) if (line.id, line.request, line.count) == (id, request, count) => {
                self.modes.resize(count, Mode::Log);
                self.modes[id] = line.account.mode;
                if (line.account, line.charge) != (served.account, served.charge) {
                    self.fail(format!(
                        "{request:?} of node {id} came to {served:?}, in the reference model to {line:?}"
                    ));
                }
            }
            other => self.fail(format!("{request:?} of node {id}, but the reference model has {other:?}")),
        }
    }
}

impl Observer for Audit<'_> {
    fn see(&mut self, event: Event, state: State<'_>) {
        self.seen.states += 1;
        match event {
            Event::PageWritten { page } => {
                self.seen.pages_written += 1;
                add_wraps(&mut self.seen.sums_wrapped, sums_wrap(&state.pool[page_range(page)]));
                self.written(page, &state);
            }
            Event::PageCopied { from, to } => {
                self.seen.pages_copied += 1;
                self.copied(from, to, state.pool);
            }
            Event::BlockErased { block } => {
                self.seen.compactions += 1;
                self.erased(block, &state);
            }
            Event::Created { .. } => self.seen.nodes_created += 1,
            Event::WroteWhole { id } => self.wrote_whole(id),
            Event::Served { id, request, served } => self.served(id, request, served, state.count),
        }
        self.check_forced(state.buffer);
        self.check_nodes(&state, matches!(event, Event::Served { .. }));
    }
}
