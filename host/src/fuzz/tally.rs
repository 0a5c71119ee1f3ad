//! What the cases have exercised, counted.

use std::collections::BTreeMap;

use crate::audit::Seen;
use crate::books::by_name;
use crate::command::Command;
use crate::foreign::flaw::FLAWS;
use crate::input::Input;
use crate::reference::Ceilings;
use crate::refusal::Refusal;

/// How often each thing was exercised.
#[derive(Clone, Debug, Default)]
pub struct Tally {
    pub cases: u64,
    /// Batches accepted.
    pub batches: u64,
    pub desks: Desks,
    pub commands: u64,
    pub seen: Seen,
    /// Puts answered with 9.
    pub ids_used_up: u64,
    /// Calls refused with each number; 9 is none of them.
    pub refusals: [u64; 12],
    pub root_splits: u64,
    pub keys_deleted: u64,
    pub scans: u64,
    pub ceilings: Ceilings,
    /// Commands that name a panel.
    pub panels: u64,
    /// Calls in which more than one panel was charged.
    pub of_several_panels: u64,
    pub multi_page_checkpoints: u64,
    pub foreign_pools: u64,
    pub tight_pools: u64,
    pub brink_pools: u64,
    pub high_pools: u64,
    /// Foreign pools whose scores are not in node order.
    pub reordered_pools: u64,
    /// Pages of foreign pools whose sum b or a passes its modulus.
    pub foreign_sums_wrapped: [u64; 2],
    /// Puts answered with 9 although some ids were unused.
    pub too_few_ids: u64,
    /// Foreign pools made with each flaw.
    pub flaws: BTreeMap<&'static str, u64>,
    pub plain_damage: u64,
    pub mended_damage: u64,
    pub mended_that_opened: u64,
    pub moved_pages: u64,
    /// Calls made; on the proved book too, where this build has it.
    pub calls: u64,
    /// Greatest charge over optimum seen, in thousandths, where the optimum is not small.
    pub worst_ratio: u64,
}

/// How often desks were called.
#[derive(Clone, Debug, Default)]
pub struct Desks {
    pub calls: u64,
    pub accepted: u64,
    /// Those refused with 11 for their lengths, and with 3 for their queues.
    pub of_wrong_lengths: u64,
    pub of_wrong_queues: u64,
    /// Queues of accepted calls, and those of them that were empty.
    pub queues: u64,
    pub empty_queues: u64,
}

impl Desks {
    pub fn count_accepted(&mut self, queues: &[Vec<Command>]) {
        self.calls += 1;
        self.accepted += 1;
        self.queues += queues.len() as u64;
        self.empty_queues += queues.iter().filter(|queue| queue.is_empty()).count() as u64;
    }

    fn count_refused(&mut self, number: u8) {
        self.calls += 1;
        self.of_wrong_lengths += u64::from(number == Refusal::QueueLengths.number());
        self.of_wrong_queues += u64::from(number == Refusal::Batch.number());
    }
}

impl Tally {
    /// Counts a refused call.
    pub(super) fn count_refused(&mut self, input: &Input, number: u8) {
        self.calls += 1;
        self.refusals[usize::from(number)] += 1;
        if let Input::Desk(_) = input {
            self.desks.count_refused(number);
        }
    }

    /// The counts with their names, in the order they are printed.
    pub fn lines(&self) -> Vec<(String, u64)> {
        let mut lines: Vec<(String, u64)> =
            self.plain_lines().into_iter().map(|(name, count)| (name.to_string(), count)).collect();
        let refused = |number: usize| (format!("calls refused with {number}"), self.refusals[number]);
        lines.extend([1, 2, 3, 4, 5, 6, 7, 8, 10, 11].map(refused));
        if by_name("proved").is_ok() {
            lines.push(("calls made on the proved book too".to_string(), self.calls));
        }
        lines.extend(FLAWS.iter().map(|flaw| {
            (format!("flaw {}: {}", flaw.number, flaw.name), self.flaws.get(flaw.name).copied().unwrap_or(0))
        }));
        lines
    }

    fn plain_lines(&self) -> [(&'static str, u64); 45] {
        [
            ("cases", self.cases),
            ("batches accepted", self.batches),
            ("desk calls", self.desks.calls),
            ("of these accepted", self.desks.accepted),
            ("of these refused with 11", self.desks.of_wrong_lengths),
            ("of these refused with 3", self.desks.of_wrong_queues),
            ("queues served", self.desks.queues),
            ("of these empty", self.desks.empty_queues),
            ("commands", self.commands),
            ("states passed", self.seen.states),
            ("node requests", self.seen.requests),
            ("splits", self.seen.splits),
            ("root splits", self.root_splits),
            ("nodes created", self.seen.nodes_created),
            ("puts refused with 9", self.ids_used_up),
            ("of these with some ids unused", self.too_few_ids),
            ("keys deleted", self.keys_deleted),
            ("scans", self.scans),
            ("ceilings", self.ceilings.all),
            ("of these equal", self.ceilings.equal),
            ("of these in a later leaf than the key's own", self.ceilings.in_later_leaf),
            ("of these through an empty leaf", self.ceilings.through_empty_leaf),
            ("of these none at or above", self.ceilings.none),
            ("panels named", self.panels),
            ("calls that charge several panels", self.of_several_panels),
            ("switches to disk", self.seen.switches_to_disk),
            ("switches to log", self.seen.switches_to_log),
            ("pages written", self.seen.pages_written),
            ("pages written whose sum b wraps", self.seen.sums_wrapped[0]),
            ("pages written whose sum a wraps", self.seen.sums_wrapped[1]),
            ("compactions", self.seen.compactions),
            ("pages copied", self.seen.pages_copied),
            ("three-page edits", self.seen.three_page_edits),
            ("checkpoints of several pages", self.multi_page_checkpoints),
            ("foreign pools", self.foreign_pools),
            ("tight pools", self.tight_pools),
            ("pools on the brink of the limit", self.brink_pools),
            ("pools of high numbers", self.high_pools),
            ("pools with scores in another order", self.reordered_pools),
            ("foreign pages whose sum b wraps", self.foreign_sums_wrapped[0]),
            ("foreign pages whose sum a wraps", self.foreign_sums_wrapped[1]),
            ("damaged pools", self.plain_damage),
            ("damaged pools with mended sums", self.mended_damage),
            ("of these opened", self.mended_that_opened),
            ("pools with moved pages", self.moved_pages),
        ]
    }
}
