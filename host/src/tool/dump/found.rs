//! How the pages of a dump lie, told from the pages in it that check.

use super::Form;
use crate::layout::{BLOCK_PAGES, MAX_BLOCKS, MIN_BLOCKS, PAGE_BYTES};
use crate::mount;
use crate::page::decode;

/// Most spare bytes behind a page that are looked for.
const MOST_SPARE: usize = 256;
/// What every written page begins with: the head of its sequence number.
const HEAD: [u8; 3] = [0x10, 0x00, 0x04];

/// How a dump lies, where it is no pool as it stands and one way alone explains every page in it that checks.
pub(super) fn form(dump: &[u8]) -> Option<Form> {
    if mount::read(dump).is_ok() {
        return None;
    }
    let straight = (false, places(dump));
    let swapped = (true, places(&swapped(dump)));
    let (swap, places) = if swapped.1.len() > straight.1.len() { swapped } else { straight };
    let first = *places.first()?;
    let fits = |spare: &usize| places.iter().all(|place| (place - first).is_multiple_of(PAGE_BYTES + spare));
    let forms = (0..=MOST_SPARE).filter(fits).filter_map(|spare| {
        let offset = offset(dump.len(), PAGE_BYTES + spare, first)?;
        Some(Form { offset, spare, swap })
    });
    forms.min_by_key(|form| (form.offset, form.spare)).filter(|form| *form != Form::default())
}

/// A dump with the bytes of each word in the other order.
fn swapped(dump: &[u8]) -> Vec<u8> {
    dump.chunks(2).flat_map(|word| word.iter().rev()).copied().collect()
}

/// Where pages begin that check.
fn places(dump: &[u8]) -> Vec<usize> {
    let heads = dump.windows(HEAD.len()).enumerate().filter(|(_, head)| *head == HEAD).map(|(at, _)| at);
    heads.filter(|&at| dump.get(at..at + PAGE_BYTES).is_some_and(|page| matches!(decode(page), Ok(Some(_))))).collect()
}

/// The bytes before the pool, if whole blocks reach from there to the end and a page begins at the first place. Of a
/// pool that could begin at more than one block, none is left out that there is room for.
fn offset(dump: usize, stride: usize, first: usize) -> Option<usize> {
    let block = stride * BLOCK_PAGES;
    let offset = (dump % block).max(dump.saturating_sub(MAX_BLOCKS * block));
    let blocks = (dump - offset) / block;
    let begins = offset <= first && (first - offset).is_multiple_of(stride);
    (begins && blocks >= MIN_BLOCKS).then_some(offset)
}
