//! Flaws in the fields of a page, the sum being right.

use crate::foreign::draft::Draft;
use crate::layout::{page_range, BLANK, LOG_PAGE_ENTRIES, MAX_KEYS, PAGE_BYTES};
use crate::page::{entry_start, pair_start, seal, used, Checkpoint, Content, CONTENT_START, SUM_FIELD_BYTES};
use crate::random::Random;
use crate::wire::{put_head, COUNT_BYTES, FIELD_HEAD, NODE_HEAD, PAIR_BYTES, SCORE_BYTES, TAG_NODE, TAG_SUM};
use crate::wire::{TAG_ENTRY, TARIFF_BYTES};

/// Bytes of a checkpoint page's fields, their heads included.
const TARIFF_FIELD_BYTES: usize = FIELD_HEAD + TARIFF_BYTES;
const SCORE_FIELD_BYTES: usize = FIELD_HEAD + SCORE_BYTES;
const COUNT_FIELD_BYTES: usize = FIELD_HEAD + COUNT_BYTES;

/// Spells the fields before the sum of one of the pages that pass a test anew, if they then still fit.
fn respell(
    random: &mut Random,
    draft: &Draft,
    pool: &mut [u8],
    test: fn(&Content) -> bool,
    change: impl FnOnce(&mut Random, &mut Vec<u8>),
) -> bool {
    let Some(at) = draft.pick_page(random, |page| test(&page.content)) else { return false };
    let bytes = &mut pool[page_range(draft.indexes[at])];
    let mut fields = bytes[..used(bytes).len() - SUM_FIELD_BYTES].to_vec();
    change(random, &mut fields);
    let fits = fields.len() + SUM_FIELD_BYTES <= PAGE_BYTES;
    if fits {
        bytes.copy_from_slice(&seal(fields));
    }
    fits
}

fn is_any(_: &Content) -> bool {
    true
}

fn is_log(content: &Content) -> bool {
    matches!(content, Content::Log(_))
}

fn is_node(content: &Content) -> bool {
    matches!(content, Content::Node { .. })
}

/// An unknown tag, commands and an answer.
pub(super) fn unknown(random: &mut Random, draft: &Draft, pool: &mut [u8]) -> bool {
    let (get, panel, ceiling) = ([0x01, 0, 4, 0, 0, 0, 1], [0x05, 0, 1, 7], [0x07, 0, 4, 0, 0, 0, 1]);
    let field = random.pick(&[&[0x16, 0, 0][..], &get, &panel, &ceiling, &[0x80, 0, 0]]);
    respell(random, draft, pool, is_any, |_, fields| fields.extend(field))
}

/// Makes the length of a page's first field or of the next one greater or less, with no byte more or fewer.
pub(super) fn other_length(random: &mut Random, draft: &Draft, pool: &mut [u8]) -> bool {
    respell(random, draft, pool, is_any, |random, fields| {
        let low = random.pick(&[0, CONTENT_START]) + FIELD_HEAD - 1;
        fields[low] = fields[low].wrapping_add(random.pick(&[1, 0xFF]));
    })
}

pub(super) fn sequence_twice(random: &mut Random, draft: &Draft, pool: &mut [u8]) -> bool {
    respell(random, draft, pool, is_any, |_, fields| {
        let first = fields[..CONTENT_START].to_vec();
        fields.splice(..0, first);
    })
}

pub(super) fn no_sequence(random: &mut Random, draft: &Draft, pool: &mut [u8]) -> bool {
    respell(random, draft, pool, is_any, |_, fields| {
        fields.drain(..CONTENT_START);
    })
}

pub(super) fn blank_first(random: &mut Random, draft: &Draft, pool: &mut [u8]) -> bool {
    respell(random, draft, pool, is_any, |_, fields| fields[0] = BLANK)
}

/// A node behind entries, or an entry behind anything else.
pub(super) fn two_kinds(random: &mut Random, draft: &Draft, pool: &mut [u8]) -> bool {
    respell(random, draft, pool, is_any, |_, fields| match fields[CONTENT_START] {
        TAG_ENTRY => fields.extend([TAG_NODE, 0, 7, 0xFF, 0xFF, 3, 0, 0, 0, 0]),
        _ => fields.extend([TAG_ENTRY, 0, 15, 0xFF, 0xFF, 0, 0, 0, 1, 1, 0, 0, 0, 0, 0, 0, 0, 0]),
    })
}

pub(super) fn node_twice(random: &mut Random, draft: &Draft, pool: &mut [u8]) -> bool {
    respell(random, draft, pool, is_node, |_, fields| fields.extend_from_within(CONTENT_START..))
}

pub(super) fn node_of_25_keys(random: &mut Random, draft: &Draft, pool: &mut [u8]) -> bool {
    respell(random, draft, pool, is_node, |_, fields| {
        let mut head = Vec::new();
        put_head(&mut head, TAG_NODE, NODE_HEAD + PAIR_BYTES * (MAX_KEYS + 1));
        fields[CONTENT_START..][..FIELD_HEAD].copy_from_slice(&head);
        fields.resize(pair_start(MAX_KEYS + 1), 0);
    })
}

/// 28 entries leave one byte of a page, which has the sum's tag.
pub(super) fn entry_28(random: &mut Random, draft: &Draft, pool: &mut [u8]) -> bool {
    let Some(at) = draft.pick_page(random, |page| is_log(&page.content)) else { return false };
    let bytes = &mut pool[page_range(draft.indexes[at])];
    for place in 0..=LOG_PAGE_ENTRIES {
        bytes.copy_within(entry_start(0)..entry_start(1), entry_start(place));
    }
    bytes[PAGE_BYTES - 1] = TAG_SUM;
    true
}

pub(super) fn no_sum(random: &mut Random, draft: &Draft, pool: &mut [u8]) -> bool {
    let bytes = &mut pool[page_range(random.pick(&draft.indexes))];
    let end = used(bytes).len() - SUM_FIELD_BYTES;
    bytes[end..].fill(BLANK);
    true
}

fn has_tariff(content: &Content) -> bool {
    matches!(content, Content::Checkpoint(Checkpoint { tariff: Some(_), .. }))
}

fn has_count(content: &Content) -> bool {
    matches!(content, Content::Checkpoint(Checkpoint { count: Some(_), .. }))
}

pub(super) fn tariff_behind_score(random: &mut Random, draft: &Draft, pool: &mut [u8]) -> bool {
    respell(random, draft, pool, has_tariff, |_, fields| {
        fields[CONTENT_START..][..TARIFF_FIELD_BYTES + SCORE_FIELD_BYTES].rotate_left(TARIFF_FIELD_BYTES);
    })
}

pub(super) fn count_before_score(random: &mut Random, draft: &Draft, pool: &mut [u8]) -> bool {
    respell(random, draft, pool, has_count, |_, fields| {
        let start = fields.len() - COUNT_FIELD_BYTES - SCORE_FIELD_BYTES;
        fields[start..].rotate_left(SCORE_FIELD_BYTES);
    })
}

pub(super) fn tariff_twice(random: &mut Random, draft: &Draft, pool: &mut [u8]) -> bool {
    respell(random, draft, pool, has_tariff, |_, fields| {
        let tariff = fields[CONTENT_START..][..TARIFF_FIELD_BYTES].to_vec();
        fields.splice(CONTENT_START..CONTENT_START, tariff);
    })
}

pub(super) fn count_twice(random: &mut Random, draft: &Draft, pool: &mut [u8]) -> bool {
    respell(random, draft, pool, has_count, |_, fields| fields.extend_from_within(fields.len() - COUNT_FIELD_BYTES..))
}
