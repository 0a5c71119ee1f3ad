//! Flaws in the rules of blocks.

use super::sequence::free_low_sequences;
use crate::foreign::draft::Draft;
use crate::layout::{page_range, BLANK, BLOCK_PAGES};
use crate::node::Node;
use crate::page::{Content, Page};
use crate::random::Random;

fn blank_blocks(draft: &Draft) -> Vec<usize> {
    let used: Vec<usize> = draft.indexes.iter().map(|page| page / BLOCK_PAGES).collect();
    (0..draft.blocks).filter(|block| !used.contains(block)).collect()
}

/// Adds a page that means nothing, with a sequence number below all others.
fn add_old_page(draft: &mut Draft, page: usize, sequence: u32) {
    let content = Content::Node { id: u16::MAX, node: Node::empty_leaf() };
    draft.pages.insert(0, Page { sequence, content });
    draft.indexes.insert(0, page);
}

pub(super) fn no_blank(_: &mut Random, draft: &mut Draft) -> bool {
    let blanks = blank_blocks(draft);
    if !free_low_sequences(draft) {
        return false;
    }
    let pages = blanks.iter().flat_map(|block| block * BLOCK_PAGES..(block + 1) * BLOCK_PAGES);
    for (page, sequence) in pages.zip(1..) {
        add_old_page(draft, page, sequence);
    }
    true
}

pub(super) fn partly_written_twice(random: &mut Random, draft: &mut Draft) -> bool {
    let blanks = blank_blocks(draft);
    if blanks.len() < 2 || !free_low_sequences(draft) {
        return false;
    }
    let first = random.pick(&blanks) * BLOCK_PAGES;
    let written = random.between(1, BLOCK_PAGES - 1);
    for (page, sequence) in (first..first + written).zip(1..) {
        add_old_page(draft, page, sequence);
    }
    true
}

/// Swaps the newest page with one of another block, where its own is partly written.
pub(super) fn newest_elsewhere(random: &mut Random, draft: &mut Draft) -> bool {
    let newest = draft.pages.len() - 1;
    let block = draft.indexes[newest] / BLOCK_PAGES;
    let others: Vec<usize> = (0..newest).filter(|&at| draft.indexes[at] / BLOCK_PAGES != block).collect();
    if draft.pages.len().is_multiple_of(BLOCK_PAGES) || others.is_empty() {
        return false;
    }
    draft.indexes.swap(newest, random.pick(&others));
    true
}

/// Blanks a page that has a written one behind it.
pub(super) fn hole(random: &mut Random, draft: &Draft, pool: &mut [u8]) -> bool {
    let is_followed = |page: &usize| page % BLOCK_PAGES < BLOCK_PAGES - 1 && draft.indexes.contains(&(page + 1));
    let followed: Vec<usize> = draft.indexes.iter().copied().filter(is_followed).collect();
    if followed.is_empty() {
        return false;
    }
    pool[page_range(random.pick(&followed))].fill(BLANK);
    true
}
