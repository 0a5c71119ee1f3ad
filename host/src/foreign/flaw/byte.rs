//! Flaws in single bytes of a page.

use crate::damage::mend;
use crate::foreign::draft::Draft;
use crate::layout::page_range;
use crate::node::Change;
use crate::page::{used, Content, SUM_FIELD_BYTES};
use crate::random::Random;
use crate::wire::{ENTRY_BYTES, FIELD_HEAD, NUMBER_BYTES, SEQUENCE_BYTES, SUM_BYTES};

/// Bytes before a page's content.
const CONTENT_START: usize = FIELD_HEAD + SEQUENCE_BYTES;
/// Bytes of an entry with its head, and where its parts begin.
const ENTRY_FIELD_BYTES: usize = FIELD_HEAD + ENTRY_BYTES;
const ENTRY_KIND: usize = FIELD_HEAD + 6;
const ENTRY_KEY: usize = ENTRY_KIND + 1;
const ENTRY_POINTER: usize = ENTRY_KEY + NUMBER_BYTES;
/// Where a node page says whether it is a leaf or a branch.
const NODE_SHAPE: usize = CONTENT_START + FIELD_HEAD + 2;

/// Changes one byte of one of the entries that pass a test, and mends the sum.
fn change_entry_byte(
    random: &mut Random,
    draft: &Draft,
    pool: &mut [u8],
    test: fn(Change) -> bool,
    (offset, byte): (usize, u8),
) -> bool {
    let mut found = Vec::new();
    for (decoded, &page) in draft.pages.iter().zip(&draft.indexes) {
        if let Content::Log(entries) = &decoded.content {
            found.extend((0..entries.len()).filter(|&at| test(entries[at].change)).map(|at| (page, at)));
        }
    }
    if found.is_empty() {
        return false;
    }
    let (page, at) = random.pick(&found);
    let page_bytes = &mut pool[page_range(page)];
    let end = used(page_bytes).len() - SUM_FIELD_BYTES;
    page_bytes[CONTENT_START + ENTRY_FIELD_BYTES * at + offset] = byte;
    mend(page_bytes, end);
    true
}

pub(super) fn unknown_kind(random: &mut Random, draft: &Draft, pool: &mut [u8]) -> bool {
    let kind = random.pick(&[0, 5, 0xFF]);
    change_entry_byte(random, draft, pool, |_| true, (ENTRY_KIND, kind))
}

pub(super) fn delete_with_pointer(random: &mut Random, draft: &Draft, pool: &mut [u8]) -> bool {
    let offset = ENTRY_POINTER + random.below(NUMBER_BYTES);
    change_entry_byte(random, draft, pool, |change| matches!(change, Change::Delete { .. }), (offset, 1))
}

pub(super) fn link_with_key(random: &mut Random, draft: &Draft, pool: &mut [u8]) -> bool {
    let offset = ENTRY_KEY + random.below(NUMBER_BYTES);
    change_entry_byte(random, draft, pool, |change| matches!(change, Change::Link(..)), (offset, 1))
}

pub(super) fn neither_leaf_nor_branch(random: &mut Random, draft: &Draft, pool: &mut [u8]) -> bool {
    let Some(at) = draft.pick_page(random, |page| matches!(page.content, Content::Node { .. })) else { return false };
    let page_bytes = &mut pool[page_range(draft.indexes[at])];
    let end = used(page_bytes).len() - SUM_FIELD_BYTES;
    page_bytes[NODE_SHAPE] = random.pick(&[0, 1, 2, 5, 0xFF]);
    mend(page_bytes, end);
    true
}

pub(super) fn byte_behind_sum(random: &mut Random, draft: &Draft, pool: &mut [u8]) -> bool {
    let page_bytes = &mut pool[page_range(random.pick(&draft.indexes))];
    let end = used(page_bytes).len();
    let at = random.between(end, page_bytes.len() - 1);
    page_bytes[at] = random.below(255) as u8;
    true
}

pub(super) fn sum_off(random: &mut Random, draft: &Draft, pool: &mut [u8]) -> bool {
    let page_bytes = &mut pool[page_range(random.pick(&draft.indexes))];
    let end = used(page_bytes).len();
    page_bytes[random.between(end - SUM_BYTES, end - 1)] ^= random.between(1, 255) as u8;
    true
}
