//! The store while a batch runs: blocks, allocation, compaction, the log buffer, and what a node
//! request writes.

use crate::account::{Account, Mode, Tariff};
use crate::layout::{block_range, page_range, BLANK, BLOCK_PAGES, LOG_PAGE_ENTRIES, MAX_LOG_PAGES};
use crate::mount::{Mounted, Row};
use crate::node::{Change, Node};
use crate::observe::{Event, Observer, State};
use crate::page::{Checkpoint, Content, Entry, Page, Score};
use crate::tree::{Step, Work};

/// A store: the pool's bytes and what is known of them.
///
/// Nodes are kept in memory beside their pages; the pool alone survives a batch.
pub struct Store<'a> {
    pool: &'a mut [u8],
    observer: &'a mut dyn Observer,
    tariff: Tariff,
    /// Written pages of each block.
    written: Vec<usize>,
    /// The block last written.
    current: usize,
    last_sequence: u32,
    /// Entries that wait for a log page.
    buffer: Vec<Entry>,
    nodes: Vec<Node>,
    rows: Vec<Row>,
    /// The pages of the checkpoint being written.
    checkpoint_pages: Vec<usize>,
}

impl<'a> Store<'a> {
    /// The store of a mounted pool. The checkpoint that it was mounted from is live no more.
    pub fn open(pool: &'a mut [u8], mounted: Mounted, observer: &'a mut dyn Observer) -> Store<'a> {
        Store {
            pool,
            observer,
            tariff: mounted.tariff,
            written: mounted.written,
            current: mounted.current,
            last_sequence: mounted.last_sequence,
            buffer: Vec::with_capacity(LOG_PAGE_ENTRIES),
            nodes: mounted.nodes,
            rows: mounted.rows,
            checkpoint_pages: Vec::new(),
        }
    }

    /// A store without a node: everything is erased, and block 0 comes first.
    pub fn erased(pool: &'a mut [u8], blocks: usize, tariff: Tariff, observer: &'a mut dyn Observer) -> Store<'a> {
        pool.fill(BLANK);
        let written = vec![0; blocks];
        let mounted = Mounted {
            written,
            current: 0,
            last_sequence: 0,
            tariff,
            nodes: Vec::new(),
            rows: Vec::new(),
            checkpoint_pages: Vec::new(),
        };
        Store::open(pool, mounted, observer)
    }

    /// The nodes by id.
    pub fn nodes(&self) -> &[Node] {
        &self.nodes
    }

    /// Does one step and gives its charge.
    pub fn run(&mut self, step: Step) -> u64 {
        let Step { id, work } = step;
        let Some(request) = work.request() else {
            if let Work::Create(node) = work {
                self.create(node);
            }
            return 0;
        };
        let served = self.rows[id].account.serve(&self.tariff, request);
        self.rows[id].account.score = served.account.score;
        if served.switched {
            self.write_content(id, served.account.mode);
        }
        match work {
            Work::Edit(change) => self.edit(id, change),
            Work::Rewrite(node) => {
                self.nodes[id] = node;
                self.write_content(id, served.account.mode);
            }
            Work::Read | Work::Create(_) => {}
        }
        self.tell(Event::Served { id, request, served });
        served.charge
    }

    /// Creates the next node, in log mode with score 0.
    ///
    /// While it forces a page out the node does not exist yet.
    pub fn create(&mut self, node: Node) {
        self.make_room(node.change_count());
        let id = self.nodes.len();
        self.nodes.push(node);
        self.rows.push(Row::default());
        self.write_group(id);
        self.tell(Event::Created { id });
    }

    /// Writes the log buffer's page, if there is one, and then the checkpoint.
    pub fn close(mut self) {
        if !self.buffer.is_empty() {
            self.write_buffer();
        }
        let scores: Vec<Score> =
            self.rows.iter().enumerate().map(|(id, row)| Score { id: id as u16, score: row.account.score }).collect();
        let count = self.rows.len() as u16;
        for content in Checkpoint::pages(self.tariff.numbers(), &scores, count) {
            let page = self.write_page(Content::Checkpoint(content));
            self.checkpoint_pages.push(page);
            self.tell(Event::PageWritten { page });
        }
    }

    /// Edits a node in the mode that it is in.
    fn edit(&mut self, id: usize, change: Change) {
        self.nodes[id].apply(change);
        match self.rows[id].account.mode {
            Mode::Disk => self.write_node_page(id),
            Mode::Log => self.edit_in_log(id, change),
        }
    }

    /// Adds one entry; or, where the node has three pages once any page that the entry forces out
    /// is written, its whole content under a new version.
    fn edit_in_log(&mut self, id: usize, change: Change) {
        self.make_room(1);
        let row = &self.rows[id];
        if row.pages.len() < MAX_LOG_PAGES {
            self.buffer.push(Entry { id: id as u16, version: row.version, change });
        } else {
            self.write_group(id);
            self.tell(Event::WroteWhole { id });
        }
    }

    /// Writes a node's whole content in a mode, which is then the node's.
    fn write_content(&mut self, id: usize, mode: Mode) {
        match mode {
            Mode::Log => self.write_group(id),
            Mode::Disk => self.write_node_page(id),
        }
    }

    /// Puts a node's whole content into the log buffer under a new version.
    ///
    /// A page forced out takes its sequence number before the version, and while it is placed the
    /// node's old pages are live.
    fn write_group(&mut self, id: usize) {
        self.make_room(self.nodes[id].change_count());
        let version = self.next_sequence();
        let changes = self.nodes[id].changes();
        self.buffer.extend(changes.map(|change| Entry { id: id as u16, version, change }));
        self.start_version(id, version, Mode::Log);
    }

    /// Writes a node's whole content as a node page; while it is placed the old pages are live.
    fn write_node_page(&mut self, id: usize) {
        let node = self.nodes[id].clone();
        let page = self.write_page(Content::Node { id: id as u16, node });
        self.start_version(id, self.last_sequence, Mode::Disk);
        self.rows[id].pages.push(page);
        self.tell(Event::PageWritten { page });
    }

    /// Begins a node's new greatest version, which lies on no page yet.
    fn start_version(&mut self, id: usize, version: u32, mode: Mode) {
        let row = &mut self.rows[id];
        row.version = version;
        row.account = Account { mode, ..row.account };
        row.pages.clear();
    }

    /// Writes the log buffer out if so many more entries do not fit.
    fn make_room(&mut self, entries: usize) {
        if self.buffer.len() + entries > LOG_PAGE_ENTRIES {
            self.write_buffer();
        }
    }

    /// Writes the log buffer as one page, stale entries too.
    fn write_buffer(&mut self) {
        let entries = self.buffer.clone();
        let page = self.write_page(Content::Log(entries));
        for Entry { id, version, .. } in self.buffer.drain(..) {
            let row = &mut self.rows[usize::from(id)];
            if row.version == version && row.pages.last() != Some(&page) {
                row.pages.push(page);
            }
        }
        self.tell(Event::PageWritten { page });
    }

    /// Writes one page behind the newest, and gives its index.
    fn write_page(&mut self, content: Content) -> usize {
        let page = self.take_page();
        let sequence = self.next_sequence();
        self.pool[page_range(page)].copy_from_slice(&Page { sequence, content }.encode());
        page
    }

    fn next_sequence(&mut self) -> u32 {
        self.last_sequence += 1;
        self.last_sequence
    }

    /// Takes the next page of the pool; a full block is left only now.
    fn take_page(&mut self) -> usize {
        if self.written[self.current] == BLOCK_PAGES {
            self.current = self.next_block();
        }
        let page = self.current * BLOCK_PAGES + self.written[self.current];
        self.written[self.current] += 1;
        page
    }

    /// The next blank block upwards and round; the last blank one takes a compaction's copies.
    fn next_block(&mut self) -> usize {
        let blocks = self.written.len();
        let mut blanks =
            (1..=blocks).map(|ahead| (self.current + ahead) % blocks).filter(|&block| self.written[block] == 0);
        let blank = blanks.next().expect("one block is always blank");
        let last_one = blanks.next().is_none();
        if last_one {
            self.compact_into(blank);
        }
        blank
    }

    /// Copies the live pages of the block with fewest of them, and erases it.
    fn compact_into(&mut self, blank: usize) {
        let live = self.live_pages();
        let live_in = |block: usize| live[block * BLOCK_PAGES..][..BLOCK_PAGES].iter().filter(|&&live| live).count();
        let candidates = (0..self.written.len()).filter(|&block| block != blank);
        let victim = candidates.min_by_key(|&block| live_in(block)).expect("a pool has four blocks");
        for from in (victim * BLOCK_PAGES..).take(BLOCK_PAGES).filter(|&page| live[page]) {
            let to = blank * BLOCK_PAGES + self.written[blank];
            self.pool.copy_within(page_range(from), page_range(to).start);
            self.written[blank] += 1;
            self.rename(from, to);
            self.tell(Event::PageCopied { from, to });
        }
        self.pool[block_range(victim)].fill(BLANK);
        self.written[victim] = 0;
        self.tell(Event::BlockErased { block: victim });
    }

    /// Which pages are live: those of greatest versions, and of the checkpoint being written.
    fn live_pages(&self) -> Vec<bool> {
        let mut live = vec![false; self.written.len() * BLOCK_PAGES];
        let of_nodes = self.rows.iter().flat_map(|row| &row.pages);
        for &page in of_nodes.chain(&self.checkpoint_pages) {
            live[page] = true;
        }
        live
    }

    /// Follows a page that compaction moved.
    fn rename(&mut self, from: usize, to: usize) {
        let of_nodes = self.rows.iter_mut().flat_map(|row| &mut row.pages);
        for page in of_nodes.chain(&mut self.checkpoint_pages).filter(|page| **page == from) {
            *page = to;
        }
    }

    fn tell(&mut self, event: Event) {
        let state = State { pool: self.pool, buffer: &self.buffer, count: self.rows.len() };
        self.observer.see(event, state);
    }
}
