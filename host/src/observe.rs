//! The states that a call passes: an observer sees each after the event that made it.

use crate::account::{Request, Served};
use crate::page::Entry;

/// What a reader may know of a store between two events: the bytes, the log buffer, the node count.
#[derive(Clone, Copy)]
pub struct State<'a> {
    pub pool: &'a [u8],
    pub buffer: &'a [Entry],
    pub count: usize,
}

/// What just happened.
#[derive(Clone, Copy, PartialEq, Eq, Debug)]
pub enum Event {
    /// A new page was written.
    PageWritten { page: usize },
    /// Compaction copied a live page; the old one is still there.
    PageCopied { from: usize, to: usize },
    /// A block was erased.
    BlockErased { block: usize },
    /// A node request was served, all its writes done.
    Served { id: usize, request: Request, served: Served },
    /// A node was created; no request.
    Created { id: usize },
    /// An edit wrote the whole content, its node having three pages.
    WroteWhole { id: usize },
}

/// Sees every event of a call with the state after it.
pub trait Observer {
    fn see(&mut self, event: Event, state: State<'_>);
}

/// An observer that looks away.
pub struct Unobserved;

impl Observer for Unobserved {
    fn see(&mut self, _: Event, _: State<'_>) {}
}
