//! The reader of pages: what one says, and every flaw that it has.

use super::{score_start, shape_of, Checkpoint, Content, Entry, Page, Score};
use super::{CONTENT_START, ENTRY_FIELD_BYTES, ENTRY_KIND, ENTRY_VERSION, LINK_START};
use super::{KIND_BRANCH, KIND_DELETE, KIND_LEAF, KIND_PUT};
use crate::layout::{BLANK, LOG_PAGE_ENTRIES};
use crate::node::{Change, Node, Pair, Shape};
use crate::wire::{next_field, page_sum, Field, Numbers, FIELD_HEAD, NODE_HEAD, PAIR_BYTES};
use crate::wire::{TAG_COUNT, TAG_ENTRY, TAG_NODE, TAG_SCORE, TAG_SEQUENCE, TAG_SUM, TAG_TARIFF};

/// What is wrong with a page, and at which of its bytes that shows.
#[derive(Clone, Copy, PartialEq, Eq, Debug)]
pub struct Flaw {
    pub byte: usize,
    pub why: &'static str,
}

impl std::fmt::Display for Flaw {
    fn fmt(&self, out: &mut std::fmt::Formatter<'_>) -> std::fmt::Result {
        write!(out, "byte {}: {}", self.byte, self.why)
    }
}

/// All that can be read of a page, and all its flaws; neither if it is blank.
#[derive(Clone, Debug)]
pub struct Reading {
    /// Where there are flaws, what is left of it: sequence number 0 if that cannot be read,
    /// and the entries that can be.
    pub page: Option<Page>,
    pub flaws: Vec<Flaw>,
}

/// Says whether these bytes are a blank page.
pub fn is_blank(bytes: &[u8]) -> bool {
    bytes.iter().all(|&byte| byte == BLANK)
}

/// Reads a page: nothing if it is blank, or else the first thing that is wrong with it.
///
/// Question 5 as far as the page's own bytes decide it.
pub fn decode(bytes: &[u8]) -> Result<Option<Page>, Flaw> {
    let Reading { page, flaws } = examine(bytes);
    match flaws.first() {
        Some(&flaw) => Err(flaw),
        None => Ok(page),
    }
}

/// Reads as much of a page as can be read, with all that is wrong with it.
pub fn examine(bytes: &[u8]) -> Reading {
    if is_blank(bytes) {
        return Reading { page: None, flaws: Vec::new() };
    }
    let mut reader = Reader { bytes, at: 0, flaws: Vec::new() };
    let sequence = reader.sequence();
    let content = reader.content(sequence);
    if content.is_some() {
        reader.sum();
    }
    Reading { page: content.map(|content| Page { sequence, content }), flaws: reader.flaws }
}

/// A page while it is read: it goes on behind a flaw where it can.
struct Reader<'a> {
    bytes: &'a [u8],
    at: usize,
    flaws: Vec<Flaw>,
}

impl<'a> Reader<'a> {
    fn flaw(&mut self, byte: usize, why: &'static str) {
        self.flaws.push(Flaw { byte, why });
    }

    /// The field at a byte, if a valid one stands there.
    fn field(&self, at: usize) -> Option<Field<'a>> {
        next_field(self.bytes.get(at..)?).map(|(field, _)| field)
    }

    /// Takes the field at hand if it has this tag.
    fn take(&mut self, tag: u8) -> Option<&'a [u8]> {
        let field = self.field(self.at).filter(|field| field.tag == tag)?;
        self.at += FIELD_HEAD + field.payload.len();
        Some(field.payload)
    }

    /// The sequence number, 0 if it cannot be read.
    fn sequence(&mut self) -> u32 {
        let sequence = self.take(TAG_SEQUENCE).map(|payload| Numbers(payload).u32());
        match sequence {
            Some(0) => self.flaw(FIELD_HEAD, "sequence number 0"),
            Some(_) => {}
            None if self.bytes[0] == BLANK => {
                let written = self.bytes.iter().position(|&byte| byte != BLANK).unwrap_or(0);
                self.flaw(written, "FF first on a page that is not blank");
            }
            None => self.flaw(0, "no sequence number first"),
        }
        self.at = CONTENT_START;
        sequence.unwrap_or(0)
    }

    fn content(&mut self, sequence: u32) -> Option<Content> {
        match self.field(self.at).map(|field| field.tag) {
            Some(TAG_ENTRY) => Some(self.log(sequence)),
            Some(TAG_NODE) => self.node(),
            Some(TAG_TARIFF | TAG_SCORE) => Some(self.checkpoint()),
            _ if self.is_entry(self.at + ENTRY_FIELD_BYTES) => Some(self.log(sequence)),
            Some(_) => {
                self.flaw(self.at, "no content behind the sequence number");
                None
            }
            None => {
                self.flaw(self.at, "no valid field behind the sequence number");
                None
            }
        }
    }

    fn is_entry(&self, at: usize) -> bool {
        self.field(at).is_some_and(|field| field.tag == TAG_ENTRY)
    }

    /// Reads entries until the sum, or until neither this nor the next is an entry.
    fn log(&mut self, sequence: u32) -> Content {
        let mut entries = Vec::with_capacity(LOG_PAGE_ENTRIES);
        loop {
            let start = self.at;
            if let Some(payload) = self.take(TAG_ENTRY) {
                entries.extend(self.entry(payload, start, sequence));
            } else if self.field(start).is_none() && self.is_entry(start + ENTRY_FIELD_BYTES) {
                self.flaw(start, "no valid field before a log entry");
                self.at += ENTRY_FIELD_BYTES;
            } else {
                return Content::Log(entries);
            }
        }
    }

    fn entry(&mut self, payload: &[u8], start: usize, sequence: u32) -> Option<Entry> {
        let mut numbers = Numbers(payload);
        let (id, version, kind) = (numbers.u16(), numbers.u32(), numbers.u8());
        let (key, pointer) = (numbers.u32(), numbers.u32());
        // Without a sequence number nothing can be said of a version.
        if version == 0 || (sequence != 0 && version >= sequence) {
            self.flaw(start + ENTRY_VERSION, "an entry's version is 0 or not below the page's sequence number");
        }
        let change = match (kind, key, pointer) {
            (KIND_PUT, key, pointer) => Change::Put(Pair { key, pointer }),
            (KIND_DELETE, key, 0) => Change::Delete { key },
            (KIND_LEAF, 0, link) => Change::Link(Shape::Leaf, link),
            (KIND_BRANCH, 0, link) => Change::Link(Shape::Branch, link),
            _ => {
                self.flaw(start + ENTRY_KIND, "an entry's kind is unknown or goes with other numbers");
                return None;
            }
        };
        Some(Entry { id, version, change })
    }

    fn node(&mut self) -> Option<Content> {
        let payload = self.take(TAG_NODE)?;
        let mut numbers = Numbers(payload);
        let (id, shape, link) = (numbers.u16(), numbers.u8(), numbers.u32());
        let Some(shape) = shape_of(shape) else {
            self.flaw(LINK_START - 1, "a node page is neither leaf nor branch");
            return None;
        };
        let count = (payload.len() - NODE_HEAD) / PAIR_BYTES;
        let pairs = (0..count).map(|_| Pair { key: numbers.u32(), pointer: numbers.u32() }).collect();
        Some(Content::Node { id, node: Node { shape, pairs, link } })
    }

    /// Reads a checkpoint page: a tariff perhaps, scores, a count perhaps.
    fn checkpoint(&mut self) -> Content {
        let tariff = self.take(TAG_TARIFF).map(|payload| {
            let mut numbers = Numbers(payload);
            std::array::from_fn(|_| numbers.u32())
        });
        let mut page = Checkpoint { tariff, scores: Vec::new(), count: None };
        while let Some(payload) = self.take(TAG_SCORE) {
            let mut numbers = Numbers(payload);
            page.scores.push(Score { id: numbers.u16(), score: numbers.u32() });
        }
        page.count = self.take(TAG_COUNT).map(|payload| Numbers(payload).u16());
        if page.scores.is_empty() || page.scores.len() > page.capacity() {
            self.flaw(score_start(tariff.is_some(), 0), "a checkpoint page has no score or too many");
        } else if page.count.is_none() && page.scores.len() < page.capacity() {
            self.flaw(self.at, "a checkpoint page that is not the last is not full");
        }
        Content::Checkpoint(page)
    }

    /// Checks field 1F at hand, and that FF follows it to the page's end.
    fn sum(&mut self) {
        let start = self.at;
        let Some(payload) = self.take(TAG_SUM) else {
            return self.flaw(start, "no sum behind the content");
        };
        if payload != page_sum(&self.bytes[..start]) {
            self.flaw(start + FIELD_HEAD, "the sum differs");
        }
        if let Some(behind) = self.bytes[self.at..].iter().position(|&byte| byte != BLANK) {
            self.flaw(self.at + behind, "a byte other than FF behind the sum");
        }
    }
}

/// The used bytes of a page, up to the end of field 1F; all of them if it does not check.
pub fn used(bytes: &[u8]) -> &[u8] {
    let end = bytes.iter().rposition(|&byte| byte != BLANK).map_or(0, |last| last + 1);
    match decode(bytes) {
        // The sum itself may end in FF.
        Ok(Some(page)) => &bytes[..page.length()],
        _ => &bytes[..end],
    }
}
