//! Faults of pages that follow each other, drawn together.

use super::pool::length_words;
use crate::refusal::{Fault, Place, Refusal};

/// So many pages in a row with the same fault are one line.
const FEWEST: usize = 3;

/// A fault, and on how many pages from its own on it is found.
pub(super) struct Run {
    fault: Fault,
    pages: usize,
    /// Whether it is at the same byte of all.
    same_byte: bool,
}

impl Run {
    /// The run in words; the length is that of the pool.
    pub fn line(&self, bytes: usize) -> String {
        let Fault { refusal, why, at } = &self.fault;
        match (at.page(), at.byte()) {
            _ if *refusal == Refusal::PoolLength => format!("{}: {}\n", self.fault, length_words(bytes)),
            (Some(page), byte) if self.pages > 1 => {
                let byte = byte.filter(|_| self.same_byte).map(|byte| format!(", byte {byte}")).unwrap_or_default();
                format!("{}: pages {page} to {}{byte}: {why}\n", refusal.number(), page + self.pages - 1)
            }
            _ => format!("{}\n", self.fault),
        }
    }

    /// Says whether a fault goes on where this run ends. Faults of nodes do not: each names another node.
    fn goes_on(&self, fault: &Fault) -> bool {
        let of_pages = [self.fault.at, fault.at].iter().all(|at| matches!(at, Place::Page(_) | Place::Byte(_)));
        let next = self.fault.at.page().map(|page| page + self.pages);
        let same = (self.fault.refusal, self.fault.why) == (fault.refusal, fault.why);
        of_pages && same && next == fault.at.page()
    }
}

/// The faults of a pool, in their order, with those of successive pages as one.
pub(super) fn runs(faults: &[Fault]) -> Vec<Run> {
    let mut runs: Vec<(Run, Vec<Fault>)> = Vec::new();
    for fault in faults {
        match runs.iter_mut().rev().find(|(run, _)| run.goes_on(fault)) {
            Some((run, all)) => {
                run.pages += 1;
                run.same_byte &= run.fault.at.byte() == fault.at.byte();
                all.push(*fault);
            }
            None => runs.push((Run { fault: *fault, pages: 1, same_byte: true }, vec![*fault])),
        }
    }
    let single = |fault| Run { fault, pages: 1, same_byte: true };
    let mut out: Vec<Run> = Vec::new();
    for (run, all) in runs {
        match run.pages < FEWEST {
            true => out.extend(all.into_iter().map(single)),
            false => out.push(run),
        }
    }
    // As they were told, where a run was too short.
    out.sort_by_key(|run| faults.iter().position(|fault| *fault == run.fault));
    out
}
