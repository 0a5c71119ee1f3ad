//! What can still be read of a pool that is refused.

use super::remains::remains;
use super::tariff::{self, Kept};
use super::words::counted;
use crate::layout::BLOCK_BYTES;
use crate::markdown::grouped;
use crate::marks::{Kind, Mark};
use crate::mount::Survey;

/// Figures of a refused pool, the tariff first.
pub(super) fn figures(pool: &[u8], marks: &[Mark]) -> Vec<(&'static str, String)> {
    let survey = Survey::of(pool, pool.len().div_ceil(BLOCK_BYTES).max(1));
    let remains = remains(pool);
    let (sure, doubtful) = remains.counts();
    vec![
        ("tariff", tariff_line(pool)),
        ("pages", pages(marks)),
        ("checkpoint", checkpoint(&survey)),
        ("nodes", nodes(&survey)),
        (
            "pairs",
            format!("{sure} for sure, {doubtful} doubtful: salvage tells each, rebuild moves them to a new pool"),
        ),
        ("sequence", sequence(&survey)),
    ]
}

fn tariff_line(pool: &[u8]) -> String {
    match Kept::of(pool) {
        Some(kept) => format!("{}; {}", tariff::words(&kept.tariff), kept.place()),
        None => "on no page that can be read".to_string(),
    }
}

/// How many pages check, do not, and are blank.
pub(super) fn pages(marks: &[Mark]) -> String {
    let count = |kind: Kind| marks.iter().filter(|mark| mark.kind == kind).count();
    let (blank, broken) = (count(Kind::Blank), count(Kind::Broken));
    format!("{} that check, {broken} that do not, {blank} blank", marks.len() - blank - broken)
}

fn checkpoint(survey: &Survey) -> String {
    match survey.count() {
        Some(count) => format!("the newest is whole and counts {}", counted(count, "node")),
        None => "the newest is not whole".to_string(),
    }
}

/// How many nodes can be read by their greatest versions, of those that are named.
fn nodes(survey: &Survey) -> String {
    let count = survey.count().unwrap_or_else(|| survey.ids());
    let gathered = survey.gather_up_to(&vec![u32::MAX; count]);
    let whole = gathered.into_iter().map(|node| node.finish().0).filter(Result::is_ok).count();
    format!("{whole} of {count} can be read")
}

fn sequence(survey: &Survey) -> String {
    match survey.pages.last() {
        Some((page, decoded)) => format!("number {} on page {page} is the last", grouped(decoded.sequence.into())),
        None => "no page checks".to_string(),
    }
}
