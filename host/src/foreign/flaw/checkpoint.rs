//! Flaws in the checkpoint.

use crate::foreign::content::dead_checkpoint_page;
use crate::foreign::draft::Draft;
use crate::page::{checkpoint_capacity, Checkpoint, Content, Page};
use crate::random::Random;

pub(super) fn not_full(random: &mut Random, draft: &mut Draft) -> bool {
    let mut page = dead_checkpoint_page(random);
    page.count = None;
    page.scores.truncate(checkpoint_capacity(page.tariff.is_some()) - 1);
    let at = random.below(draft.pages.len());
    draft.pages[at].content = Content::Checkpoint(page);
    true
}

pub(super) fn overfull(random: &mut Random, draft: &mut Draft) -> bool {
    let mut page = dead_checkpoint_page(random);
    page.count = None;
    let score = page.scores[0];
    page.scores.resize(checkpoint_capacity(page.tariff.is_some()) + 1, score);
    let at = random.below(draft.pages.len());
    draft.pages[at].content = Content::Checkpoint(page);
    true
}

pub(super) fn no_score(random: &mut Random, draft: &mut Draft) -> bool {
    let mut page = dead_checkpoint_page(random);
    page.count = Some(1);
    page.scores.clear();
    let at = random.below(draft.pages.len());
    draft.pages[at].content = Content::Checkpoint(page);
    true
}

/// Where the checkpoint's pages begin; they are the last.
fn checkpoint_start(draft: &Draft) -> usize {
    let first = |page: &Page| matches!(&page.content, Content::Checkpoint(Checkpoint { tariff: Some(_), .. }));
    draft.pages.iter().rposition(first).expect("a draft has a checkpoint")
}

pub(super) fn newest_is_other(random: &mut Random, draft: &mut Draft) -> bool {
    let newest = draft.pages.len() - 1;
    let Some(at) = draft.pick_page(random, |page| !matches!(page.content, Content::Checkpoint(_))) else {
        return false;
    };
    draft.pages[at].sequence = draft.pages[newest].sequence + 1;
    draft.indexes.swap(at, newest);
    true
}

pub(super) fn log_page_within(random: &mut Random, draft: &mut Draft) -> bool {
    let start = checkpoint_start(draft);
    let Some(at) = draft.pick_page(random, |page| !matches!(page.content, Content::Checkpoint(_))) else {
        return false;
    };
    draft.pages[at].sequence = draft.pages[start].sequence + 1;
    start + 1 < draft.pages.len()
}

/// Changes one of the pages of the checkpoint.
fn change_checkpoint(draft: &mut Draft, at: usize, change: impl FnOnce(&mut Checkpoint) -> bool) -> bool {
    match &mut draft.pages[at].content {
        Content::Checkpoint(page) => change(page),
        _ => false,
    }
}

/// Changes one of the checkpoint's pages, which one by chance.
fn change_some_checkpoint(
    random: &mut Random,
    draft: &mut Draft,
    change: impl FnOnce(&mut Checkpoint) -> bool,
) -> bool {
    let at = random.between(checkpoint_start(draft), draft.pages.len() - 1);
    change_checkpoint(draft, at, change)
}

pub(super) fn id_twice(random: &mut Random, draft: &mut Draft) -> bool {
    change_some_checkpoint(random, draft, |page| {
        let last = page.scores.len() - 1;
        page.scores[0].id = page.scores[last].id;
        last > 0
    })
}

pub(super) fn id_at_count(random: &mut Random, draft: &mut Draft) -> bool {
    let count = draft.node_count();
    change_some_checkpoint(random, draft, |page| {
        page.scores[0].id = count;
        true
    })
}

/// Makes the count another.
fn change_count(draft: &mut Draft, count: u16) -> bool {
    let newest = draft.pages.len() - 1;
    change_checkpoint(draft, newest, |page| {
        page.count = Some(count);
        true
    })
}

pub(super) fn id_missing(_: &mut Random, draft: &mut Draft) -> bool {
    let count = draft.node_count();
    change_count(draft, count + 1)
}

pub(super) fn count_zero(_: &mut Random, draft: &mut Draft) -> bool {
    change_count(draft, 0)
}

pub(super) fn count_twice(_: &mut Random, draft: &mut Draft) -> bool {
    let (start, newest, count) = (checkpoint_start(draft), draft.pages.len() - 1, draft.node_count());
    change_checkpoint(draft, start, |page| {
        page.count = Some(count);
        true
    }) && start < newest
}

/// Makes the checkpoint's last page older than its first, so that the newest is one without a count.
pub(super) fn count_missing(_: &mut Random, draft: &mut Draft) -> bool {
    let (start, newest) = (checkpoint_start(draft), draft.pages.len() - 1);
    if start == newest {
        return false;
    }
    draft.pages[newest].sequence = draft.pages[start].sequence - 1;
    draft.indexes.swap(newest, newest - 1);
    true
}

pub(super) fn no_tariff(_: &mut Random, draft: &mut Draft) -> bool {
    for page in &mut draft.pages {
        if let Content::Checkpoint(page) = &mut page.content {
            page.tariff = None;
            page.count = page.count.or(Some(1));
        }
    }
    true
}
