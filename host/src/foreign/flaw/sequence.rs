//! Flaws in sequence numbers and versions.

use super::log_page::change_entries;
use crate::foreign::draft::Draft;
use crate::layout::MAX_SEQUENCE;
use crate::page::{Content, Entry};
use crate::random::Random;

pub(super) fn twice(random: &mut Random, draft: &mut Draft) -> bool {
    let (one, other) = (random.below(draft.pages.len()), random.below(draft.pages.len()));
    draft.pages[one].sequence = draft.pages[other].sequence;
    one != other
}

pub(super) fn zero(random: &mut Random, draft: &mut Draft) -> bool {
    let at = random.below(draft.pages.len());
    draft.pages[at].sequence = 0;
    true
}

pub(super) fn used_up(random: &mut Random, draft: &mut Draft) -> bool {
    let newest = draft.pages.len() - 1;
    draft.pages[newest].sequence = random.pick(&[MAX_SEQUENCE + 1, MAX_SEQUENCE + 1000, u32::MAX]);
    true
}

/// Changes one entry of one of the log pages.
fn change_entry(random: &mut Random, draft: &mut Draft, change: impl FnOnce(&mut Random, u32, &mut Entry)) -> bool {
    change_entries(random, draft, |random, sequence, entries| {
        let at = random.below(entries.len());
        change(random, sequence, &mut entries[at]);
    })
}

pub(super) fn version_is_sequence(random: &mut Random, draft: &mut Draft) -> bool {
    let oldest = draft.pages[0].sequence;
    let mut took = false;
    change_entry(random, draft, |_, sequence, entry| {
        took = oldest < sequence;
        entry.version = oldest;
    }) && took
}

pub(super) fn version_not_below(random: &mut Random, draft: &mut Draft) -> bool {
    change_entry(random, draft, |random, sequence, entry| entry.version = sequence + random.below(2) as u32)
}

pub(super) fn version_zero(random: &mut Random, draft: &mut Draft) -> bool {
    change_entry(random, draft, |_, _, entry| entry.version = 0)
}

/// Frees the lowest sequence numbers, so that old pages can be added; nothing if there is no room above.
pub(super) fn free_low_sequences(draft: &mut Draft) -> bool {
    const FREED: u32 = 10_000;
    if draft.pages.last().is_none_or(|newest| newest.sequence > MAX_SEQUENCE - FREED) {
        return false;
    }
    for page in &mut draft.pages {
        page.sequence += FREED;
        if let Content::Log(entries) = &mut page.content {
            entries.iter_mut().for_each(|entry| entry.version += FREED);
        }
    }
    true
}
