//! `stats`: figures of a pool.

mod as_json;

use super::node::spelled;
use super::room::{levels, room, Room};
use super::words::{Options, Words};
use super::{dump, refused, tariff, Said, Stop, Verb};
use crate::account::Mode;
use crate::layout::{node_limit, BLOCK_BYTES, BLOCK_PAGES, MAX_KEYS, MAX_SEQUENCE};
use crate::markdown::grouped;
use crate::marks::{counts, marks, Mark};
use crate::mount::{read, Mounted};
use crate::refusal::Fault;
use crate::score_order;

pub(super) const VERB: Verb = Verb {
    name: "stats",
    words: "FILE",
    about: "depth, fill, modes, room, and live and dead pages",
    more: "Of a pool that is refused: what can still be read, the tariff first, but not as JSON; exit status 1.\n\n\
           Room is for new keys, nothing being deleted: any keys at least, and no keys more than at most, before a\n\
           put is refused with 9. A compaction is due when a page is needed, the block at hand is full and one block\n\
           alone is blank.\n\n\
           Wear cannot be told: a pool keeps no count of how often its blocks were erased. What can be told: a block\n\
           was not erased since the newest page in it was written, and that page's sequence number is given; of a\n\
           blank block nothing is known. wallbook diff, with two copies of a pool that were taken at different times,\n\
           names the blocks that were erased between them, but not how often.\n\n\
           --json has the keys file, bytes, tariff (eight numbers), score_limit; nodes: count, limit, leaves,\n\
           branches, log, disk, depth; leaves: keys, least, most; room: least, most; pages: live, dead, blank;\n\
           pages_to_compaction; sequence: last, left; scores_in_node_order; and blocks, a list of live, dead, blank\n\
           and newest (null of a blank block).",
    options: &["--json", "--spare", "--offset", "--swap"],
    run,
};

fn run(words: &mut Words<'_>, options: &Options) -> Result<Said, Stop> {
    let name = words.word("a file")?;
    words.end()?;
    let bytes = dump::read(name, options)?;
    match options.json {
        true => {
            let figures = as_json::figures(name, &bytes, &spelled(name, &bytes)?, &marks(&bytes));
            Ok(Said::text(format!("{figures}\n")))
        }
        false => Ok(in_words(name, &bytes)),
    }
}

/// The figures in words, a line each.
fn in_words(name: &str, bytes: &[u8]) -> Said {
    let refused = read(bytes).err();
    let mut text = format!("{name}: {}\n", size(bytes));
    for (what, figure) in figures(bytes) {
        text.push_str(&format!("{what:<11} {figure}\n"));
    }
    let marks = marks(bytes);
    let pages = if refused.is_none() { pages } else { refused::pages };
    for (block, marks) in marks.chunks(BLOCK_PAGES).enumerate() {
        text.push_str(&format!("{:<11} {}{}\n", format!("block {block}"), pages(marks), newest(marks)));
    }
    let note = |fault: &Fault| format!("{name}: refused with {fault} (wallbook check {name} tells all)\n");
    let note = refused.as_ref().map(note).unwrap_or_default();
    Said { text, note, status: u8::from(refused.is_some()) }
}

/// How large a pool is.
pub(super) fn size(bytes: &[u8]) -> String {
    format!("{} bytes in {} blocks", grouped(bytes.len() as u128), bytes.len() / BLOCK_BYTES)
}

/// The figures of a pool; of one that is refused, what can still be read.
pub(super) fn figures(bytes: &[u8]) -> Vec<(&'static str, String)> {
    let (marks, mounted) = (marks(bytes), read(bytes));
    let Ok(mounted) = mounted else { return refused::figures(bytes, &marks) };
    let limit = node_limit(marks.len() / BLOCK_PAGES);
    vec![
        ("tariff", tariff::words(&mounted.tariff)),
        ("nodes", nodes(&mounted, limit)),
        ("leaves", leaves(&mounted)),
        ("room", room_line(&mounted, limit)),
        ("pages", pages(&marks)),
        ("compaction", compaction(&mounted)),
        ("sequence", sequence(&mounted)),
        ("scores", scores(bytes)),
        ("wear", "not known: a pool keeps no count of how often its blocks were erased".to_string()),
    ]
}

fn nodes(mounted: &Mounted, limit: usize) -> String {
    let all = mounted.nodes.len();
    let leaves = mounted.nodes.iter().filter(|node| node.is_leaf()).count();
    let log = mounted.rows.iter().filter(|row| row.account.mode == Mode::Log).count();
    let depth = levels(&mounted.nodes).len();
    let modes = format!("{log} in log mode, {} in disk mode", all - log);
    format!("{all} of {limit}: leaves {leaves}, branches {}; {modes}; depth {depth}", all - leaves)
}

fn leaves(mounted: &Mounted) -> String {
    let fill = &levels(&mounted.nodes)[0];
    let keys: usize = fill.iter().sum();
    let (least, most) = (fill.iter().min().unwrap_or(&0), fill.iter().max().unwrap_or(&0));
    let (mean, share) = (keys as f64 / fill.len() as f64, 100 * keys / (MAX_KEYS * fill.len()));
    format!("{keys} keys, {least} to {most} a leaf, {mean:.1} on average: {share}% full")
}

fn room_line(mounted: &Mounted, limit: usize) -> String {
    let Room { least, most } = room(&mounted.nodes, limit);
    format!("at least {least} and at most {most} new keys")
}

fn pages(marks: &[Mark]) -> String {
    let (live, written) = counts(marks);
    format!("{live} live, {} dead, {} blank", written - live, marks.len() - written)
}

/// The greatest sequence number of a block that is not blank.
fn newest(marks: &[Mark]) -> String {
    newest_sequence(marks).map(|sequence| format!("; newest {}", grouped(sequence.into()))).unwrap_or_default()
}

fn newest_sequence(marks: &[Mark]) -> Option<u32> {
    marks.iter().map(|mark| mark.sequence).max().filter(|&sequence| sequence > 0)
}

fn compaction(mounted: &Mounted) -> String {
    format!("due when {} more pages are written and one more is needed", pages_left(mounted))
}

/// The pages that can be written before one more takes a compaction.
fn pages_left(mounted: &Mounted) -> usize {
    let blank = mounted.written.iter().filter(|&&written| written == 0).count();
    BLOCK_PAGES - mounted.written[mounted.current] + BLOCK_PAGES * (blank - 1)
}

fn sequence(mounted: &Mounted) -> String {
    let left = u128::from(MAX_SEQUENCE.saturating_sub(mounted.last_sequence));
    format!("number {} is the last; {} are left", grouped(mounted.last_sequence.into()), grouped(left))
}

/// Whether the newest checkpoint has its scores in node order, as every batch since document 02 writes them.
fn scores(bytes: &[u8]) -> String {
    match score_order::check(bytes) {
        Ok(()) => "in node order".to_string(),
        Err(_) => "in another order, which opens; the next batch writes them in node order".to_string(),
    }
}

#[cfg(test)]
mod tests {
    use crate::layout::PAGE_BYTES;
    use crate::page::{decode, Content, Page};
    use crate::tool::trial::{said, text, Folder};

    /// A pool of 30 keys in two leaves.
    fn three_nodes(folder: &Folder) -> String {
        let pool = folder.prepared("p");
        let csv: String = (0..30).map(|key| format!("{key},0\n")).collect();
        std::fs::write(folder.file("csv"), csv).expect("is written");
        text(&["import", &pool, &folder.file("csv")]);
        pool
    }

    #[test]
    fn figures_of_a_small_pool() {
        let folder = Folder::new("stats");
        let pool = three_nodes(&folder);
        let stats = text(&["stats", &pool]);
        let mut lines = stats.lines();
        assert_eq!(lines.next(), Some(format!("{pool}: 65,536 bytes in 4 blocks").as_str()));
        let tariff = "tariff      3 1 2 in log mode, 1 4 4 in disk mode, switches 3 2; limit 5";
        assert_eq!(lines.next(), Some(tariff));
        let nodes = lines.next().expect("a line");
        assert!(nodes.starts_with("nodes       3 of 20: leaves 2, branches 1; "), "{nodes}");
        assert!(nodes.ends_with("; depth 2"), "{nodes}");
        assert_eq!(lines.next(), Some("leaves      30 keys, 12 to 18 a leaf, 15.0 on average: 62% full"));
        // 17 splits are left: the first after 7 keys more, each of the others after 12 more.
        assert_eq!(lines.next(), Some("room        at least 210 and at most 426 new keys"));
        let live: Vec<usize> = stats.lines().filter_map(live).collect();
        assert_eq!(live[0], live[1..].iter().sum::<usize>(), "{stats}");
        assert_eq!(live.len(), 5, "the pool and its four blocks");
        assert!(stats.contains("\nwear        not known: a pool keeps no count of how often its blocks were erased\n"));
        assert!(text(&["help", "stats"]).contains("Wear cannot be told: a pool keeps no count"));
    }

    #[test]
    fn a_block_was_not_erased_since_its_newest_page() {
        let folder = Folder::new("newest");
        let pool = folder.prepared("p");
        for _ in 0..40 {
            text(&["run", &pool, "-"]);
        }
        // Prepare's sequence numbers are 1 to 3, and an empty batch takes one for its page.
        let stats = text(&["stats", &pool]);
        let blocks: Vec<&str> = stats.lines().skip_while(|line| !line.starts_with("block 0")).collect();
        let lines = [
            "block 0     1 live, 31 dead, 0 blank; newest 33",
            "block 1     1 live, 9 dead, 22 blank; newest 43",
            "block 2     0 live, 0 dead, 32 blank",
            "block 3     0 live, 0 dead, 32 blank",
        ];
        assert_eq!(blocks, lines);
    }

    /// The live pages of a line that has them.
    fn live(line: &str) -> Option<usize> {
        line.split(" live").next().filter(|_| line.contains(" live"))?.split(' ').next_back()?.parse().ok()
    }

    #[test]
    fn a_compaction_comes_when_it_is_due() {
        let folder = Folder::new("due");
        let pool = folder.prepared("p");
        let due = |stats: &str| -> usize {
            let line = stats.lines().find(|line| line.starts_with("compaction")).expect("a line");
            line.split(' ').find_map(|word| word.parse().ok()).expect("a number")
        };
        assert_eq!(due(&text(&["stats", &pool])), 94, "two pages of three blocks are written");
        // An empty batch writes one page.
        let blocks = |pool: &str| text(&["show", pool]).matches("0 live of  0").count();
        for _ in 0..94 {
            text(&["run", &pool, "-"]);
        }
        assert_eq!((due(&text(&["stats", &pool])), blocks(&pool)), (0, 1));
        text(&["run", &pool, "-"]);
        assert_eq!((due(&text(&["stats", &pool])), blocks(&pool)), (31, 1), "a block without a live page was erased");
    }

    #[test]
    fn scores_in_another_order_are_told_and_the_next_batch_mends_them() {
        let folder = Folder::new("scores");
        let pool = three_nodes(&folder);
        let scores = || {
            let stats = text(&["stats", &pool]);
            stats.lines().find_map(|line| Some(line.strip_prefix("scores")?.trim().to_string())).expect("a line")
        };
        assert_eq!(scores(), "in node order");
        let mut bytes = std::fs::read(&pool).expect("is read");
        bytes.chunks_exact_mut(PAGE_BYTES).for_each(reverse_scores);
        std::fs::write(&pool, bytes).expect("is written");
        assert_eq!(scores(), "in another order, which opens; the next batch writes them in node order");
        text(&["run", &pool, "-"]);
        assert_eq!(scores(), "in node order");
    }

    /// Turns the scores of a checkpoint page round and mends its sums.
    fn reverse_scores(bytes: &mut [u8]) {
        let Ok(Some(Page { sequence, content: Content::Checkpoint(mut page) })) = decode(bytes) else { return };
        page.scores.reverse();
        bytes.copy_from_slice(&Page { sequence, content: Content::Checkpoint(page) }.encode());
    }

    #[test]
    fn a_refused_pool_tells_what_can_still_be_read_the_tariff_first() {
        let folder = Folder::new("refused-stats");
        let short = folder.file("short");
        std::fs::write(&short, [0; 100]).expect("is written");
        let refused = said(&["stats", &short]);
        assert!(refused.status == 1 && refused.note.contains("refused with 1: "), "{refused:?}");
        assert!(refused.text.contains("\ntariff      on no page that can be read\n"), "{refused:?}");
        let pool = three_nodes(&folder);
        let mut bytes = std::fs::read(&pool).expect("is there");
        bytes[PAGE_BYTES * 2 + 20] ^= 1;
        std::fs::write(&pool, &bytes).expect("is written");
        let refused = said(&["stats", &pool]);
        assert!(refused.status == 1 && refused.note.contains("refused with 5: page 2, byte "), "{refused:?}");
        let lines: Vec<&str> = refused.text.lines().collect();
        let tariff = "tariff      3 1 2 in log mode, 1 4 4 in disk mode, switches 3 2; limit 5; on page ";
        assert!(lines[1].starts_with(tariff) && lines[1].ends_with(", the newest that has one"), "{}", lines[1]);
        assert!(lines[2].starts_with("pages ") && lines[2].contains(", 1 that do not, "), "{}", lines[2]);
        assert_eq!(lines[3], "checkpoint  the newest is whole and counts 3 nodes");
        assert!(lines[5].starts_with("pairs ") && lines[5].contains(" doubtful: salvage tells each"), "{}", lines[5]);
    }
}
