//! `show`: blocks and pages, a letter a page.

use super::words::{Options, Words};
use super::{dump, Said, Stop, Verb};
use crate::layout::BLOCK_PAGES;
use crate::marks::{counts, marks, Kind, Mark};
use crate::mount::examine;

pub(super) const VERB: Verb = Verb {
    name: "show",
    words: "FILE",
    about: "blocks and pages, a letter a page",
    more: "L log page, N node page, C checkpoint page: live; l n c: dead; . blank; ! does not check.\n\
           A pool that is refused is shown too; where it spells no tree, no page is known to be live.",
    options: &dump::OPTIONS,
    run,
};

fn run(words: &mut Words<'_>, options: &Options) -> Result<Said, Stop> {
    let name = words.word("a file")?;
    words.end()?;
    let bytes = dump::read(name, options)?;
    let head = match examine(&bytes).faults.first() {
        None => format!("{name} opens"),
        Some(fault) => format!("{name} is refused with {fault}"),
    };
    let marks = marks(&bytes);
    let newest =
        (0..marks.len()).filter(|&page| marks[page].kind != Kind::Broken).max_by_key(|&page| marks[page].sequence);
    let lines = marks.chunks(BLOCK_PAGES).enumerate().map(|(block, marks)| line(block, marks, newest));
    Ok(Said::text(format!("{head}\n{}", lines.collect::<String>())))
}

/// A block's number, its pages in groups of eight, how many are live, and whether the newest is here.
fn line(block: usize, marks: &[Mark], newest: Option<usize>) -> String {
    let groups = marks.chunks(8).map(|group| group.iter().map(Mark::letter).collect::<String>());
    let (live, written) = counts(marks);
    let newest = newest.filter(|page| page / BLOCK_PAGES == block && written > 0);
    let newest = newest.map(|page| format!(", newest at {}", page % BLOCK_PAGES)).unwrap_or_default();
    let groups = groups.collect::<Vec<_>>().join(" ");
    format!("{block:>3}  {groups}  {live:>2} live of {written:>2}{newest}\n")
}

#[cfg(test)]
mod tests {
    use crate::tool::trial::{text, Folder};

    #[test]
    fn a_page_is_a_letter() {
        let folder = Folder::new("show");
        let pool = folder.prepared("p");
        text(&["put", &pool, "7", "100"]);
        let blank = "........ ........ ........ ........   0 live of  0";
        let first = "LcLC.... ........ ........ ........   3 live of  4, newest at 3";
        let lines = format!("  0  {first}\n  1  {blank}\n  2  {blank}\n  3  {blank}\n");
        assert_eq!(text(&["show", &pool]), format!("{pool} opens\n{lines}"));
        let mut bytes = std::fs::read(&pool).expect("is there");
        bytes[512 + 10] ^= 1;
        std::fs::write(&pool, bytes).expect("is written");
        let broken = lines.replace("LcLC", "L!LC");
        let refused = format!("{pool} is refused with 5: page 1, byte 59: the sum differs");
        assert_eq!(text(&["show", &pool]), format!("{refused}\n{broken}"));
    }
}
