//! The tariff of a pool, wherever it still stands: every checkpoint repeats the one that prepare was given.

use super::words::Words;
use super::Stop;
use crate::account::Tariff;
use crate::layout::BLOCK_BYTES;
use crate::mount::Survey;
use crate::page::{Content, Page};

/// The tariff of document 01's worked cases, where none is given.
pub(super) const WORKED: [u32; 8] = [3, 1, 2, 1, 4, 4, 3, 2];

/// A tariff that was found, and where.
pub(super) struct Kept {
    pub tariff: Tariff,
    pub page: usize,
    /// Whether the page checks.
    pub checks: bool,
}

impl Kept {
    /// The tariff on the newest page that has one; on a page that does not check, where no other has.
    pub fn of(pool: &[u8]) -> Option<Kept> {
        let survey = Survey::of(pool, pool.len().div_ceil(BLOCK_BYTES).max(1));
        let kept = |checks: bool| move |(page, tariff): (usize, Tariff)| Kept { tariff, page, checks };
        let whole = survey.pages.iter().rev().find_map(|(page, decoded)| Some((*page, tariff_of(decoded)?)));
        let broken =
            || survey.broken.iter().find_map(|(page, reading)| Some((*page, tariff_of(reading.page.as_ref()?)?)));
        whole.map(kept(true)).or_else(|| broken().map(kept(false)))
    }

    /// Where it was found, in words.
    pub fn place(&self) -> String {
        match self.checks {
            true => format!("on page {}, the newest that has one", self.page),
            false => format!("on page {}, which does not check", self.page),
        }
    }
}

/// The tariff of a page, if it has one in range.
fn tariff_of(page: &Page) -> Option<Tariff> {
    match &page.content {
        Content::Checkpoint(checkpoint) => checkpoint.tariff.and_then(Tariff::from_numbers),
        _ => None,
    }
}

/// A tariff in words: its costs by mode, its switches and the limit that they add up to.
pub(super) fn words(tariff: &Tariff) -> String {
    let numbers = tariff.numbers().map(|number| number.to_string());
    let [log, disk] = [&numbers[..3], &numbers[3..6]].map(|costs| costs.join(" "));
    format!("{log} in log mode, {disk} in disk mode, switches {}; limit {}", numbers[6..].join(" "), tariff.limit())
}

/// The rest of a tariff whose first number is read.
pub(super) fn rest(first: u32, words: &mut Words<'_>) -> Result<[u32; 8], Stop> {
    let mut numbers = [first; 8];
    for place in &mut numbers[1..] {
        *place = words.number("eight tariff numbers")?;
    }
    Ok(numbers)
}
