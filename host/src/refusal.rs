//! The numbers of refused calls.

use std::fmt;

/// Why a call is refused; the discriminants are the papers' numbers.
#[derive(Clone, Copy, PartialEq, Eq, Debug, Hash, PartialOrd, Ord)]
#[repr(u8)]
pub enum Refusal {
    PoolLength = 1,
    TableLength = 2,
    Batch = 3,
    AnswerRoom = 4,
    Pages = 5,
    Checkpoint = 6,
    Tree = 7,
    SequenceNumbers = 8,
    Tariff = 10,
    QueueLengths = 11,
}

impl Refusal {
    pub fn number(self) -> u8 {
        self as u8
    }
}

/// The refusal of a number in a sentence, for people; 9 is that of a single put.
pub fn words(number: u8) -> &'static str {
    match number {
        1 => "the pool is not 4 to 64 blocks of 16,384 bytes",
        2 => "the table has fewer than 1,024 bytes a block",
        3 => "the batch is over 32,768 bytes or not valid, or a queue is not valid or names a panel",
        4 => "the answers would not fit their buffer",
        5 => "a page, or the pages together, break the layout",
        6 => "the newest checkpoint is incomplete",
        7 => "the tree that the pool spells is unsound",
        8 => "the sequence numbers are used up",
        9 => "too few node ids are left for the split that it needs",
        10 => "a tariff number is out of range",
        11 => "the lengths of the queues are over sixteen, or not whole, or do not add up to the queues' bytes",
        _ => "a number that no book should give",
    }
}

/// A refusal of a pool with its reason, for people; the number alone is promised.
#[derive(Clone, Copy, PartialEq, Eq, Debug)]
pub struct Fault {
    pub refusal: Refusal,
    pub why: &'static str,
    /// Where it was seen.
    pub at: Place,
}

#[derive(Clone, Copy, PartialEq, Eq, Debug)]
pub enum Place {
    Pool,
    Page(usize),
    Byte(Byte),
    Block(usize),
    /// A node, and where it shows if it lies on a page.
    Node(usize, Option<Byte>),
}

impl Place {
    /// The page where it shows, if it shows on one.
    pub fn page(&self) -> Option<usize> {
        match self {
            Place::Page(page) | Place::Byte(Byte { page, .. }) => Some(*page),
            Place::Node(_, byte) => byte.map(|byte| byte.page),
            Place::Pool | Place::Block(_) => None,
        }
    }

    /// The byte of its page, where it is known.
    pub fn byte(&self) -> Option<usize> {
        match self {
            Place::Byte(byte) | Place::Node(_, Some(byte)) => Some(byte.byte),
            _ => None,
        }
    }
}

/// A byte of a page.
#[derive(Clone, Copy, PartialEq, Eq, Debug)]
pub struct Byte {
    pub page: usize,
    pub byte: usize,
}

impl fmt::Display for Byte {
    fn fmt(&self, out: &mut fmt::Formatter<'_>) -> fmt::Result {
        write!(out, "page {}, byte {}", self.page, self.byte)
    }
}

impl fmt::Display for Place {
    fn fmt(&self, out: &mut fmt::Formatter<'_>) -> fmt::Result {
        match self {
            Place::Pool => out.write_str("the pool"),
            Place::Page(page) => write!(out, "page {page}"),
            Place::Byte(byte) => write!(out, "{byte}"),
            Place::Block(block) => write!(out, "block {block}"),
            Place::Node(id, None) => write!(out, "node {id}"),
            Place::Node(id, Some(byte)) => write!(out, "node {id} ({byte})"),
        }
    }
}

impl fmt::Display for Fault {
    fn fmt(&self, out: &mut fmt::Formatter<'_>) -> fmt::Result {
        write!(out, "{}: {}: {}", self.refusal.number(), self.at, self.why)
    }
}
