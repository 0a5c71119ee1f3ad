//! Blocks and pages: a row a block, a cell a page.

use crate::layout::{BLOCK_PAGES, PAGE_BYTES};
use crate::marks::{counts, Kind, Mark};
use crate::page::examine;
use crate::svg::escaped;

/// The section of blocks and pages.
pub(super) fn section(bytes: &[u8], marks: &[Mark], knows_live: bool) -> String {
    let mut out = String::from("<section><h2>Blocks and pages</h2>\n");
    out.push_str(&legend(marks, knows_live));
    out.push_str("<div class=\"blocks\" role=\"group\" aria-label=\"Pages: arrow keys move\">\n");
    let newest = (0..marks.len())
        .filter(|&page| marks[page].kind != Kind::Broken && marks[page].sequence > 0)
        .max_by_key(|&page| marks[page].sequence);
    out.push_str(&scale());
    for (block, row) in marks.chunks(BLOCK_PAGES).enumerate() {
        out.push_str(&format!("<div class=\"block\"><span>block {block}</span>"));
        for (place, mark) in row.iter().enumerate() {
            let page = BLOCK_PAGES * block + place;
            out.push_str(&cell(page, mark, &bytes[PAGE_BYTES * page..][..PAGE_BYTES], newest == Some(page)));
        }
        out.push_str(&format!("{}</div>\n", meter(row, knows_live)));
    }
    out.push_str("</div></section>\n");
    out
}

/// The places of pages in a block, every eighth.
fn scale() -> String {
    let place = |place: usize| if place.is_multiple_of(8) { format!("<em>{place}</em>") } else { "<em></em>".into() };
    format!("<div class=\"scale\"><span>page</span>{}</div>\n", (0..BLOCK_PAGES).map(place).collect::<String>())
}

fn cell(page: usize, mark: &Mark, bytes: &[u8], is_newest: bool) -> String {
    let class = class(mark);
    let newest = if is_newest { " newest" } else { "" };
    let words = words(page, mark, bytes) + if is_newest { ", the newest" } else { "" };
    format!("<b id=\"p{page}\" class=\"{class}{newest}\" title=\"{}\"></b>", escaped(&words))
}

/// What a cell looks like: a letter for its kind, and `d` where it is dead.
fn class(mark: &Mark) -> &'static str {
    match (mark.kind, mark.live) {
        (Kind::Blank, _) => "e",
        (Kind::Broken, _) => "x",
        (Kind::Log, Some(false)) => "l d",
        (Kind::Log, _) => "l",
        (Kind::Node, Some(false)) => "n d",
        (Kind::Node, _) => "n",
        (Kind::Checkpoint, Some(false)) => "c d",
        (Kind::Checkpoint, _) => "c",
    }
}

/// A page in a line; one that does not check with its first flaw.
fn words(page: usize, mark: &Mark, bytes: &[u8]) -> String {
    let flaw = match mark.kind {
        Kind::Broken => examine(bytes).flaws.first().map(|flaw| format!(" ({flaw})")),
        _ => None,
    };
    mark.words(page) + &flaw.unwrap_or_default()
}

/// How much of a block is live, dead and blank.
fn meter(row: &[Mark], knows_live: bool) -> String {
    let (live, written) = counts(row);
    let share = |pages: usize| 100.0 * pages as f64 / row.len() as f64;
    let words = match knows_live {
        true => format!("{live} live of {written}"),
        false => format!("{written} written"),
    };
    format!(
        "<span class=\"meter\"><u><i style=\"width:{:.0}%\"></i><s style=\"width:{:.0}%\"></s></u>{words}</span>",
        share(live),
        share(written - live)
    )
}

/// What the cells mean: the kinds that there are, and what live and dead look like.
fn legend(marks: &[Mark], knows_live: bool) -> String {
    let sample = |class: &str, word: &str| format!("<span><b class=\"{class}\"></b>{word}</span>");
    let mut out = String::from("<p class=\"key\">");
    for kind in Kind::ALL.into_iter().filter(|kind| *kind != Kind::Broken) {
        out.push_str(&sample(class(&Mark { kind, live: None, sequence: 0 }), kind.name()));
    }
    if marks.iter().any(|mark| mark.kind == Kind::Broken) {
        out.push_str(&sample("x", Kind::Broken.name()));
    }
    match knows_live {
        true => out.push_str(&sample("l d", "pale: dead, nothing needs it")),
        false => out.push_str("<span>which pages are live is not known: the pool spells no tree</span>"),
    }
    out.push_str(&sample("l newest", "ringed: the newest"));
    out.push_str("</p>\n");
    out
}
