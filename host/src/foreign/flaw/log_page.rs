//! Flaws in the log pages, and in the pages that a node lies on.

use crate::foreign::draft::Draft;
use crate::layout::{LOG_PAGE_ENTRIES, MAX_LOG_PAGES};
use crate::node::Change;
use crate::page::{Content, Entry, Page};
use crate::random::Random;

/// Changes the entries of one of the log pages.
pub(super) fn change_entries(
    random: &mut Random,
    draft: &mut Draft,
    change: impl FnOnce(&mut Random, u32, &mut Vec<Entry>),
) -> bool {
    let Some(at) = draft.pick_page(random, |page| matches!(page.content, Content::Log(_))) else { return false };
    let Page { sequence, content: Content::Log(entries) } = &mut draft.pages[at] else { return false };
    change(random, *sequence, entries);
    true
}

pub(super) fn no_entry(random: &mut Random, draft: &mut Draft) -> bool {
    change_entries(random, draft, |_, _, entries| entries.clear())
}

/// Adds entries to other log pages until a log node lies on four, which are refused whatever the entries do.
pub(super) fn four_pages(random: &mut Random, draft: &mut Draft) -> bool {
    let id = random.below(usize::from(draft.node_count())) as u16;
    let version = draft.greatest_version(id);
    if draft.pages.iter().any(|page| page.sequence == version) {
        return false;
    }
    let lies_on = |page: &Page| page.versions().any(|seen| seen == (id, version));
    let mut pages = draft.pages.iter().filter(|page| lies_on(page)).count();
    for page in draft.pages.iter_mut().filter(|page| !lies_on(page) && page.sequence > version) {
        let Content::Log(entries) = &mut page.content else { continue };
        if pages <= MAX_LOG_PAGES && entries.len() < LOG_PAGE_ENTRIES {
            entries.push(Entry { id, version, change: Change::Delete { key: u32::MAX } });
            pages += 1;
        }
    }
    pages > MAX_LOG_PAGES
}

pub(super) fn on_no_page(random: &mut Random, draft: &mut Draft) -> bool {
    let count = draft.node_count();
    let gone = random.below(usize::from(count)) as u16;
    for page in &mut draft.pages {
        match &mut page.content {
            Content::Log(entries) => {
                entries.iter_mut().filter(|entry| entry.id == gone).for_each(|entry| entry.id = count + 500);
            }
            Content::Node { id, .. } if *id == gone => *id = count + 500,
            _ => {}
        }
    }
    true
}
