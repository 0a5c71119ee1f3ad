//! All pages of a pool, and question 5.

use super::fault;
use crate::layout::{BLOCK_PAGES, PAGE_BYTES};
use crate::page::{self, entry_start, Content, Page, Reading, ENTRY_VERSION};
use crate::refusal::{Byte, Fault, Place, Refusal};
use crate::wire::FIELD_HEAD;

/// All pages of a pool that are not blank.
pub struct Survey {
    pub(super) blocks: usize,
    /// The pages that check: each one's index and what it says, by sequence number.
    pub pages: Vec<(usize, Page)>,
    /// Those that do not: each one's index and what can be read of it.
    pub broken: Vec<(usize, Reading)>,
    /// Each block's pages up to its last written one.
    pub(super) written: Vec<usize>,
    /// Written pages behind a blank one.
    pub behind_blank: Vec<usize>,
}

impl Survey {
    /// Reads all pages.
    pub fn of(pool: &[u8], blocks: usize) -> Survey {
        let mut survey = Survey {
            blocks,
            pages: Vec::new(),
            broken: Vec::new(),
            written: vec![0; blocks],
            behind_blank: Vec::new(),
        };
        for (page, bytes) in pool.chunks_exact(PAGE_BYTES).enumerate() {
            match page::examine(bytes) {
                Reading { page: None, flaws } if flaws.is_empty() => continue,
                Reading { page: Some(decoded), flaws } if flaws.is_empty() => survey.pages.push((page, decoded)),
                reading => survey.broken.push((page, reading)),
            }
            let written = &mut survey.written[page / BLOCK_PAGES];
            if *written != page % BLOCK_PAGES {
                survey.behind_blank.push(page);
            }
            *written = page % BLOCK_PAGES + 1;
        }
        survey.pages.sort_unstable_by_key(|(_, decoded)| decoded.sequence);
        survey
    }

    /// One more than the greatest node id on a page that checks.
    pub fn ids(&self) -> usize {
        let ids = self.pages.iter().flat_map(|(_, page)| page.versions()).map(|(id, _)| usize::from(id) + 1);
        ids.max().unwrap_or(0)
    }

    /// The newest page that checks and its sequence number.
    pub(super) fn newest(&self) -> Option<(usize, u32)> {
        self.pages.last().map(|(page, decoded)| (*page, decoded.sequence))
    }

    /// Question 5.
    pub fn check_pages(&self, faults: &mut Vec<Fault>) {
        for (page, reading) in &self.broken {
            let at = |byte: usize| Place::Byte(Byte { page: *page, byte });
            faults.extend(reading.flaws.iter().map(|flaw| fault(Refusal::Pages, at(flaw.byte), flaw.why)));
        }
        let behind = |&page| fault(Refusal::Pages, Place::Page(page), "a written page behind a blank one");
        faults.extend(self.behind_blank.iter().map(behind));
        self.check_sequences(faults);
        self.check_blocks(faults);
    }

    /// Sequence numbers all differ, and none is the version of a log entry.
    fn check_sequences(&self, faults: &mut Vec<Fault>) {
        let refused = |page: usize, byte: usize, why| fault(Refusal::Pages, Place::Byte(Byte { page, byte }), why);
        for twins in self.pages.windows(2).filter(|pair| pair[0].1.sequence == pair[1].1.sequence) {
            faults.push(refused(twins[1].0, FIELD_HEAD, "a sequence number twice"));
        }
        let sequences = SequenceSet::of(&self.pages);
        for (page, decoded) in &self.pages {
            let Content::Log(entries) = &decoded.content else { continue };
            for (place, _) in entries.iter().enumerate().filter(|(_, entry)| sequences.contains(entry.version)) {
                let byte = entry_start(place) + ENTRY_VERSION;
                faults.push(refused(*page, byte, "a version is a page's sequence number"));
            }
        }
    }

    /// One block at least is blank; one at most is partly written, and it holds the newest page.
    fn check_blocks(&self, faults: &mut Vec<Fault>) {
        if !self.written.contains(&0) {
            faults.push(fault(Refusal::Pages, Place::Pool, "no blank block"));
        }
        let newest = self.newest().map(|(page, _)| page / BLOCK_PAGES);
        // A page that does not check may be the newest.
        let may_hold_newest =
            |block| Some(block) == newest || self.broken.iter().any(|(page, _)| page / BLOCK_PAGES == block);
        let is_partly = |&block: &usize| self.written[block] > 0 && self.written[block] < BLOCK_PAGES;
        let partly: Vec<usize> = (0..self.blocks).filter(is_partly).collect();
        for (at, &block) in partly.iter().enumerate() {
            if !may_hold_newest(block) {
                faults.push(fault(Refusal::Pages, Place::Block(block), "partly written without the newest page"));
            } else if partly[..at].iter().any(|&before| may_hold_newest(before)) {
                faults.push(fault(Refusal::Pages, Place::Block(block), "a second partly written block"));
            }
        }
    }
}

/// Sequence numbers of pages, with a quick answer for numbers that are none of them.
struct SequenceSet {
    ascending: Vec<u32>,
    marks: Vec<bool>,
}

impl SequenceSet {
    const MARKS: u32 = 1 << 14;

    fn of(pages: &[(usize, Page)]) -> SequenceSet {
        let ascending: Vec<u32> = pages.iter().map(|(_, decoded)| decoded.sequence).collect();
        let mut marks = vec![false; Self::MARKS as usize];
        for sequence in &ascending {
            marks[(sequence % Self::MARKS) as usize] = true;
        }
        SequenceSet { ascending, marks }
    }

    fn contains(&self, version: u32) -> bool {
        self.marks[(version % Self::MARKS) as usize] && self.ascending.binary_search(&version).is_ok()
    }
}
