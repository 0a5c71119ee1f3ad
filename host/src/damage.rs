//! Damage to a pool's bytes, with and without the sum of the page mended.

use crate::layout::{page_range, BLANK, PAGE_BYTES};
use crate::page::{decode, used, SUM_FIELD_BYTES};
use crate::random::Random;
use crate::wire::{page_sum, FIELD_HEAD};

/// The written pages of a pool.
pub fn written_pages(pool: &[u8]) -> Vec<usize> {
    let pages = pool.chunks_exact(PAGE_BYTES).enumerate();
    pages.filter(|(_, bytes)| matches!(decode(bytes), Ok(Some(_)))).map(|(page, _)| page).collect()
}

/// Changes one byte anywhere and leaves it at that: no single byte escapes question 5.
pub fn change_byte(random: &mut Random, pool: &mut [u8]) {
    let at = random.below(pool.len());
    pool[at] ^= random.between(1, 255) as u8;
}

/// Changes bytes of one written page before its sum, and mends the sum.
pub fn change_mended(random: &mut Random, pool: &mut [u8]) {
    let page = random.pick(&written_pages(pool));
    let bytes = &mut pool[page_range(page)];
    let end = used(bytes).len() - SUM_FIELD_BYTES;
    for _ in 0..random.pick(&[1, 1, 2, 4]) {
        let at = random.below(end);
        bytes[at] = match random.below(3) {
            0 => random.next_u32() as u8,
            1 => bytes[at].wrapping_add(1),
            _ => bytes[at].wrapping_sub(1),
        };
    }
    mend(bytes, end);
}

/// Swaps two written pages, or copies one over another, or blanks one.
pub fn move_pages(random: &mut Random, pool: &mut [u8]) {
    let pages = written_pages(pool);
    let (one, other) = (random.pick(&pages), random.pick(&pages));
    match random.below(3) {
        0 => pool.copy_within(page_range(one), page_range(other).start),
        1 => pool[page_range(one)].fill(BLANK),
        _ => {
            let copy = pool[page_range(one)].to_vec();
            pool.copy_within(page_range(other), page_range(one).start);
            pool[page_range(other)].copy_from_slice(&copy);
        }
    }
}

/// Writes the sum of a page's first `end` bytes behind them, where field 1F stands.
pub fn mend(bytes: &mut [u8], end: usize) {
    let sum = page_sum(&bytes[..end]);
    bytes[end + FIELD_HEAD..end + SUM_FIELD_BYTES].copy_from_slice(&sum);
}
