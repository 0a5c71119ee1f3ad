//! Which page of a pool is written next and what is copied for it, on both books, by document 01's words alone.

use crate::common::{Fixture, FREE};
use crate::spelled::{checkpoint, leaf, node_page, tree};
use yokehour_host::layout::{block_range, page_range, BLANK, BLOCK_BYTES, BLOCK_PAGES, NO_LINK};
use yokehour_host::page::is_blank;

/// A pool with these blocks full: the nodes of a tree at some places, the checkpoint at the end of the current block
/// with the greatest sequence number, and pages that mean nothing elsewhere. The further a page is, the older.
fn pool_with(blocks: usize, full: &[usize], current: usize, nodes: &[usize]) -> Vec<u8> {
    let mut pool = vec![BLANK; blocks * BLOCK_BYTES];
    let contents = tree(nodes.len());
    let newest = (current + 1) * BLOCK_PAGES - 1;
    for page in full.iter().flat_map(|block| block * BLOCK_PAGES..(block + 1) * BLOCK_PAGES) {
        let sequence = (blocks * BLOCK_PAGES - page) as u32;
        let id = nodes.iter().position(|&place| place == page);
        let written = match id {
            Some(id) => node_page(sequence, id, contents[id].clone()),
            None if page == newest => checkpoint(newest_sequence(blocks), nodes.len())[0].clone(),
            None => node_page(sequence, 0xFFFF, leaf(0..1, NO_LINK)),
        };
        pool[page_range(page)].copy_from_slice(&written.encode());
    }
    pool
}

/// The sequence number of [`pool_with`]'s checkpoint, above those of all pages.
fn newest_sequence(blocks: usize) -> u32 {
    (blocks * BLOCK_PAGES) as u32 + 1
}

/// The pool that an empty batch makes of a pool: all that it has to write is a checkpoint.
fn closed(pool: &[u8]) -> Vec<u8> {
    let mut fixture = Fixture { pool: pool.to_vec(), answers: Vec::new() };
    let outcome = fixture.batch(&[]);
    assert_eq!((outcome.number, outcome.charge()), (0, 0));
    fixture.pool
}

/// Writes the checkpoint that comes next at a place.
fn write_next_checkpoint(pool: &mut [u8], page: usize, nodes: usize) {
    let next = newest_sequence(pool.len() / BLOCK_BYTES) + 1;
    pool[page_range(page)].copy_from_slice(&checkpoint(next, nodes)[0].encode());
}

#[test]
fn behind_a_full_block_comes_the_next_blank_one_upwards_and_round() {
    let table: [(usize, &[usize], usize); 7] = [
        (0, &[0], 1),
        (2, &[2], 3),
        (4, &[4], 0),
        (4, &[0, 4], 1),
        (1, &[1, 2, 3], 4),
        (3, &[3, 4], 0),
        (2, &[1, 2, 3], 4),
    ];
    for (current, full, next) in table {
        let before = pool_with(5, full, current, &[current * BLOCK_PAGES]);
        let mut expected = before.clone();
        write_next_checkpoint(&mut expected, next * BLOCK_PAGES, 1);
        assert!(closed(&before) == expected, "current {current}, full {full:?}: not block {next}");
    }
}

#[test]
fn the_last_blank_block_takes_the_live_pages_of_the_block_with_fewest() {
    // The places of nodes, the blank block, the block that is erased, and what is copied out of it.
    let table: [(&[usize], usize, usize, &[usize]); 7] = [
        // Two blocks without a live page: the lower one, and nothing to copy.
        (&[70, 71, 72], 3, 0, &[]),
        (&[0, 5, 6], 3, 1, &[]),
        // Two with one each: the lower one.
        (&[0, 5, 40, 70], 3, 1, &[40]),
        (&[7, 40, 41, 70, 71], 3, 0, &[7]),
        // The current one has fewest; its checkpoint is live no more.
        (&[0, 1, 33, 40, 70], 3, 2, &[70]),
        // Copies go by place, whatever the ids.
        (&[9, 3, 17, 40, 41, 42, 70, 71, 72, 73], 3, 0, &[3, 9, 17]),
        // The blank block may be any.
        (&[40, 60, 70, 71, 96, 97], 0, 1, &[40, 60]),
    ];
    for (nodes, blank, erased, copied) in table {
        let full: Vec<usize> = (0..4).filter(|&block| block != blank).collect();
        let before = pool_with(4, &full, 2, nodes);
        let mut expected = before.clone();
        let to = blank * BLOCK_PAGES;
        for (&from, to) in copied.iter().zip(to..) {
            expected.copy_within(page_range(from), page_range(to).start);
        }
        expected[block_range(erased)].fill(BLANK);
        write_next_checkpoint(&mut expected, to + copied.len(), nodes.len());
        assert!(closed(&before) == expected, "nodes at {nodes:?}, block {blank} blank");
    }
}

#[test]
fn a_block_just_filled_is_left_when_the_next_page_is_needed() {
    let mut fixture = Fixture::prepared(4, FREE);
    // Prepare wrote two pages, each empty batch writes one.
    for page in 2..BLOCK_PAGES {
        assert!(is_blank(&fixture.pool[page_range(page)]));
        fixture.batch(&[]);
        assert_eq!(fixture.page(page).sequence, page as u32 + 2);
    }
    assert!(is_blank(&fixture.pool[BLOCK_BYTES..]));
    fixture.batch(&[]);
    assert_eq!(fixture.page(BLOCK_PAGES).sequence, 34);
}
