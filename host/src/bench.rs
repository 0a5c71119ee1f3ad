//! Both books by turns, in thread time; what the proved one copies; how deep its stack goes. Tables in Markdown.

mod aged;
mod by_turns;
mod clock;
mod copies;
mod desk;
mod emptied;
mod longest;
mod place;
mod stack;
mod times;

pub use clock::timed;
pub use copies::{Copies, Counter, Moved};

use crate::{books, markdown};

/// How a measurement is made.
pub struct Setup {
    /// Rounds that the shortest time is taken of.
    pub rounds: usize,
    /// Counts what is copied while some work is done.
    pub count_copies: Counter,
    /// Tells a person who waits what is being done.
    pub say: fn(&str),
}

impl Setup {
    /// What a reader of the figures has to know; or why there will be none.
    pub fn preface(&self) -> Result<String, String> {
        let place = books::proved_code()? % 64;
        Ok(format!(
            "The shortest of {} rounds. The proved book's code stands at {place} modulo 64; its place alone moves an \
             empty batch by up to a third, and each link of this program has another.",
            self.rounds
        ))
    }
}

/// A table of a measurement: its first row is the head.
type Rows = Result<Vec<Vec<String>>, String>;

/// A measurement: its name, what it is of, and the table that it prints.
pub struct Section {
    pub name: &'static str,
    pub title: &'static str,
    how: &'static str,
    rows: fn(&Setup) -> Rows,
}

/// All measurements.
pub const SECTIONS: &[Section] = &[
    Section {
        name: "times",
        title: "A get, a put and an empty batch, in microseconds",
        how:
            "Thread time, both books by turns on one aged pool, the shortest of many rounds: random keys, 13 for each \
              node of the limit, overwritten until every block was erased twice on the average. A get and a put of a \
              key that is there: a batch of 2,000, less an empty batch, divided.",
        rows: times::rows,
    },
    Section {
        name: "longest",
        title: "The longest calls known, in milliseconds",
        how: "Thread time, both books by turns, the shortest of a few rounds: a pool of 64 blocks in log mode with \
              nearly as many leaves as fit, all emptied by deletes, and as many scans of all keys, or ceilings of key \
              0, as a batch holds, or a desk joins.",
        rows: longest::rows,
    },
    Section {
        name: "desk",
        title: "A get and a put at a desk and in a batch, in microseconds",
        how: "Thread time, both books by turns, the shortest of many rounds, on the pool of 64 blocks in log mode and \
              with the commands of the first table: 2,000 in one call, less an empty batch, divided.",
        rows: desk::rows,
    },
    Section {
        name: "copies",
        title: "What the proved book copies for a get and for a put, on 64 blocks in log mode",
        how:
            "Calls of the C library's functions and the bytes that they move or fill, the pool and commands as above: \
              a batch of 2,000, less an empty batch, divided. Copies that the compiler does in place are not seen.",
        rows: copies::rows,
    },
    Section {
        name: "stack",
        title: "The deepest stack of the proved book's calls, in bytes",
        how: "The deepest byte that lost its paint, counted from the caller, of whose frame some 70 bytes are in it, \
              and some 200 where it holds the charges.",
        rows: stack::rows,
    },
];

impl Section {
    /// Makes the measurement and gives it as a table in Markdown.
    pub fn text(&self, setup: &Setup) -> Result<String, String> {
        let rows = (self.rows)(setup)?;
        Ok(format!("## {}\n\n{}\n\n{}", self.title, self.how, markdown::table(&rows)))
    }
}
