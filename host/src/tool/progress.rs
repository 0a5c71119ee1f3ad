//! A line on standard error where something takes longer than a second.

use std::time::{Duration, Instant};

use crate::output::note;

const PATIENCE: Duration = Duration::from_secs(1);

/// How far a long job is, told once a second.
pub(super) struct Progress {
    what: &'static str,
    last: Instant,
}

impl Progress {
    pub fn new(what: &'static str) -> Progress {
        Progress { what, last: Instant::now() }
    }

    /// Notes that so many are done.
    pub fn tell(&mut self, done: usize) {
        if self.last.elapsed() >= PATIENCE {
            note(&format!("wallbook: {done} {}\n", self.what));
            self.last = Instant::now();
        }
    }
}
