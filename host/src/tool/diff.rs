//! `diff`: what changed from one pool to another.

use std::collections::BTreeMap;

use super::words::{Options, Words};
use super::{dump, Said, Stop, Verb};
use crate::layout::{BLOCK_PAGES, PAGE_BYTES};
use crate::mount::read;
use crate::page::is_blank;
use crate::tree;

pub(super) const VERB: Verb = Verb {
    name: "diff",
    words: "A B",
    about: "from pool A to B: pages written, blocks erased, keys added, changed, removed",
    more:
        "Pages and blocks are told by their bytes: a page that is the same in both counts as not written, though its\n\
           block may have been erased in between. Keys are told where both pools spell a tree.\n\
           Exit status 0 if no byte differs, 1 if one does.",
    options: &dump::OPTIONS,
    run,
};

fn run(words: &mut Words<'_>, options: &Options) -> Result<Said, Stop> {
    let (one, other) = (words.word("a file")?, words.word("a second file")?);
    words.end()?;
    let (a, b) = (dump::read(one, options)?, dump::read(other, options)?);
    if a == b {
        return Ok(Said::text("no byte differs\n"));
    }
    if a.len() != b.len() {
        return Err(Stop::no(format!("{one} has {} bytes, {other} {}: not the same pool", a.len(), b.len())));
    }
    let keys = match (pairs(one, &a), pairs(other, &b)) {
        (Ok(before), Ok(after)) => keys(&before, &after),
        (Err(why), _) | (_, Err(why)) => why,
    };
    Ok(Said { text: pages(&a, &b) + &keys, status: 1, ..Said::default() })
}

/// Which pages were written and which blocks erased.
fn pages(a: &[u8], b: &[u8]) -> String {
    let pages: Vec<(&[u8], &[u8])> = a.chunks(PAGE_BYTES).zip(b.chunks(PAGE_BYTES)).collect();
    let changed = |page: &usize| pages[*page].0 != pages[*page].1;
    let written = (0..pages.len()).filter(changed).filter(|&page| !is_blank(pages[page].1));
    // What was written can only change by an erase of its block.
    let mut erased: Vec<usize> = (0..pages.len())
        .filter(changed)
        .filter(|&page| !is_blank(pages[page].0))
        .map(|page| page / BLOCK_PAGES)
        .collect();
    erased.dedup();
    format!("pages written: {}\nblocks erased: {}\n", numbers(written), numbers(erased.into_iter()))
}

/// Numbers with their count, runs drawn together.
fn numbers(all: impl Iterator<Item = usize>) -> String {
    let mut runs: Vec<(usize, usize)> = Vec::new();
    let mut count = 0;
    for number in all {
        count += 1;
        match runs.last_mut() {
            Some((_, last)) if *last + 1 == number => *last = number,
            _ => runs.push((number, number)),
        }
    }
    let run = |(from, to): &(usize, usize)| if from == to { from.to_string() } else { format!("{from} to {to}") };
    match count {
        0 => "none".to_string(),
        _ => format!("{count} ({})", runs.iter().map(run).collect::<Vec<_>>().join(", ")),
    }
}

type Map = BTreeMap<u32, u32>;

fn pairs(name: &str, bytes: &[u8]) -> Result<Map, String> {
    let refused = |fault| format!("keys are not compared: {name} is refused with {fault}\n");
    let mounted = read(bytes).map_err(refused)?;
    Ok(tree::pairs(&mounted.nodes).into_iter().map(|pair| (pair.key, pair.pointer)).collect())
}

/// A line for each key that is not the same in both.
fn keys(before: &Map, after: &Map) -> String {
    let (mut added, mut changed, mut removed, mut lines) = (0, 0, 0, String::new());
    let both: BTreeMap<u32, ()> = before.keys().chain(after.keys()).map(|&key| (key, ())).collect();
    for key in both.into_keys() {
        let line = match (before.get(&key), after.get(&key)) {
            (Some(old), Some(new)) if old == new => continue,
            (Some(old), Some(new)) => {
                changed += 1;
                format!("changed {key}: {old} to {new}")
            }
            (Some(old), None) => {
                removed += 1;
                format!("removed {key}: {old}")
            }
            (None, new) => {
                added += 1;
                format!("added {key}: {}", new.copied().unwrap_or_default())
            }
        };
        lines.push_str(&format!("{line}\n"));
    }
    format!("keys: {added} added, {changed} changed, {removed} removed\n{lines}")
}

#[cfg(test)]
mod tests {
    use super::numbers;
    use crate::tool::trial::{said, text, Folder};

    #[test]
    fn what_a_batch_changed_is_told() {
        let folder = Folder::new("diff");
        let (a, b) = (folder.prepared("a"), folder.file("b"));
        std::fs::write(folder.file("csv"), "1,10\n2,20\n3,30\n").expect("is written");
        text(&["import", &a, &folder.file("csv")]);
        std::fs::copy(&a, &b).expect("is copied");
        assert_eq!(text(&["diff", &a, &b]), "no byte differs\n");
        for line in [&["put", &b, "4", "40"][..], &["put", &b, "2", "21"], &["delete", &b, "1"]] {
            text(line);
        }
        let said = said(&["diff", &a, &b]);
        let pages = "pages written: 6 (4 to 9)\nblocks erased: none\n";
        let keys = "keys: 1 added, 1 changed, 1 removed\nremoved 1: 10\nchanged 2: 20 to 21\nadded 4: 40\n";
        assert_eq!((said.status, said.text), (1, format!("{pages}{keys}")));
    }

    #[test]
    fn an_erased_block_and_a_refused_pool_are_told() {
        let folder = Folder::new("erased");
        let (a, b) = (folder.prepared("a"), folder.file("b"));
        let empty_batches = |pool: &str, count| (0..count).for_each(|_| drop(text(&["run", pool, "-"])));
        empty_batches(&a, 40);
        std::fs::copy(&a, &b).expect("is copied");
        empty_batches(&b, 55);
        let told = said(&["diff", &a, &b]).text;
        assert!(told.contains("\nblocks erased: 1 (1)\nkeys: 0 added, 0 changed, 0 removed\n"), "{told}");
        let mut bytes = std::fs::read(&b).expect("is there");
        bytes[70 * 512 + 20] ^= 1;
        std::fs::write(&b, bytes).expect("is written");
        let told = said(&["diff", &a, &b]).text;
        assert!(
            told.contains("keys are not compared: ") && told.contains("is refused with 5: page 70, byte "),
            "{told}"
        );
        std::fs::write(&b, [0; 9]).expect("is written");
        assert_eq!(said(&["diff", &a, &b]).status, 1);
    }

    #[test]
    fn runs_are_drawn_together() {
        assert_eq!(numbers([].into_iter()), "none");
        assert_eq!(numbers([3].into_iter()), "1 (3)");
        assert_eq!(numbers([1, 2, 3, 7, 9, 10].into_iter()), "6 (1 to 3, 7, 9 to 10)");
    }
}
