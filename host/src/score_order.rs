//! The order of scores (document 02, P1), read from a pool's bytes alone.

use crate::layout::PAGE_BYTES;
use crate::page::{decode, Checkpoint, Content, Score};

/// The scores of the newest checkpoint as they stand: by page sequence number, then by place.
pub fn newest_scores(pool: &[u8]) -> Vec<Score> {
    let pages = newest_checkpoint(pool);
    pages.into_iter().flat_map(|page| page.scores).collect()
}

/// The pages of the newest checkpoint by sequence number.
pub fn newest_checkpoint(pool: &[u8]) -> Vec<Checkpoint> {
    let written = pool.chunks_exact(PAGE_BYTES).filter_map(|bytes| decode(bytes).ok().flatten());
    let mut pages: Vec<(u32, Checkpoint)> = written
        .filter_map(|page| match page.content {
            Content::Checkpoint(checkpoint) => Some((page.sequence, checkpoint)),
            Content::Log(_) | Content::Node { .. } => None,
        })
        .collect();
    pages.sort_by_key(|(sequence, _)| *sequence);
    let first = pages.iter().rposition(|(_, page)| page.tariff.is_some()).unwrap_or(0);
    pages.drain(first..).map(|(_, page)| page).collect()
}

/// Asks that the scores of the newest checkpoint stand by ascending id.
pub fn check(pool: &[u8]) -> Result<(), String> {
    let scores = newest_scores(pool);
    match scores.windows(2).find(|pair| pair[0].id >= pair[1].id) {
        Some(pair) => Err(format!("the score of node {} stands before that of node {}", pair[0].id, pair[1].id)),
        None => Ok(()),
    }
}
