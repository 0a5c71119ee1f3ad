//! `rebuild`: a new pool of what an old one still has.

use super::import::BATCH_PUTS;
use super::plan::Plan;
use super::pool::Pool;
use super::remains::{remains, Remains};
use super::tariff::{self, Kept};
use super::words::{counted, Options, Words};
use super::{dump, file, stats, Said, Stop, Verb};
use crate::command::{Answer, Command};
use crate::mount::{mount, read};
use crate::node::Pair;
use crate::tree;

pub(super) const VERB: Verb = Verb {
    name: "rebuild",
    words: "OLD NEW [BLOCKS] [TARIFF ..]",
    about: "a new pool of what an old one still has: after damage, or for more room",
    more:
        "Salvage, prepare and import in one: the answer to refusals 5 to 8, to a put that is refused with 9, and to a\n\
           wish for more room. The pairs that are sure go in; with --all the likeliest of each doubtful key too.\n\
           BLOCKS, where not given, are the fewest that have room for a quarter more keys, whatever they are. Leaves\n\
           are made three quarters full, or fuller where the blocks are few. TARIFF, eight numbers as prepare takes\n\
           them, is OLD's where not given, or document 01's worked one where OLD has none that can be read.\n\
           OLD is not written. NEW, where it is there already, is kept, unless --force is given. Exit status 1 if\n\
           something was doubtful or lost, or if NEW was not made.",
    options: &["--book", "--all", "--force", "--spare", "--offset", "--swap"],
    run,
};

fn run(words: &mut Words<'_>, options: &Options) -> Result<Said, Stop> {
    let (old, new) = (words.word("an old pool")?, words.word("a name for the new one")?);
    let (blocks, given) = numbers(words)?;
    let bytes = dump::read(old, options)?;
    let remains = remains(&bytes);
    let pairs = chosen(&remains, options.all);
    let opens = read(&bytes).is_ok();
    if pairs.is_empty() && !opens {
        let (_, doubtful) = remains.counts();
        let all = if doubtful > 0 { "; --all takes the doubtful ones" } else { "" };
        return Err(Stop::no(format!("{old}: no pair is sure, so {new} is not made{all}")));
    }
    let tariff = Chosen::of(given, &bytes);
    let plan = Plan::of(&pairs, blocks)?;
    let pool = filled(new, &plan, tariff.numbers, options)?;
    holds(&pool, &pairs)?;
    file::write(new, &pool.bytes, &[old], options.force)?;
    let text = told(old, &remains, options.all) + &made(new, &pool.bytes, &plan, &tariff);
    Ok(Said { text, note: String::new(), status: u8::from(!remains.is_whole()) })
}

/// The count of blocks and the tariff, either of which may be left out: one number, eight or nine.
fn numbers(words: &mut Words<'_>) -> Result<(Option<u32>, Option<[u32; 8]>), Stop> {
    let mut numbers = Vec::new();
    while let Some(number) = words.number_if_any("a count of blocks, or a tariff number")? {
        numbers.push(number);
    }
    let (blocks, tariff) = match numbers.len() {
        1 | 9 => (Some(numbers[0]), &numbers[1..]),
        _ => (None, &numbers[..]),
    };
    match tariff.len() {
        0 => Ok((blocks, None)),
        8 => Ok((blocks, tariff.try_into().ok())),
        _ => Err(Stop::wrong("a count of blocks, eight tariff numbers, or both expected")),
    }
}

/// The pairs that are sure; if all are wanted, the likeliest value of every other key too.
fn chosen(remains: &Remains, all: bool) -> Vec<Pair> {
    let likeliest = remains.found.iter().filter_map(|(&key, found)| Some((key, found.first()?)));
    let taken = likeliest.filter(|(_, found)| all || found.doubt.is_none());
    taken.map(|(key, found)| Pair { key, pointer: found.value }).collect()
}

/// A tariff, and where it is from.
struct Chosen {
    numbers: [u32; 8],
    from: String,
}

impl Chosen {
    fn of(given: Option<[u32; 8]>, old: &[u8]) -> Chosen {
        match (given, Kept::of(old)) {
            (Some(numbers), _) => Chosen { numbers, from: "as given".to_string() },
            (None, Some(kept)) => {
                Chosen { numbers: kept.tariff.numbers(), from: format!("the old one, {}", kept.place()) }
            }
            (None, None) => {
                let from = "document 01's worked one: the old pool has none that can be read".to_string();
                Chosen { numbers: tariff::WORKED, from }
            }
        }
    }
}

/// The new pool in memory.
fn filled<'a>(name: &'a str, plan: &Plan, tariff: [u32; 8], options: &Options) -> Result<Pool<'a>, Stop> {
    let mut pool = Pool::prepared(name, plan.blocks as u32, tariff, options)?;
    for pairs in plan.order.chunks(BATCH_PUTS) {
        let puts: Vec<Command> = pairs.iter().map(|pair| Command::Put { key: pair.key, value: pair.pointer }).collect();
        if pool.batch(&puts)?.iter().any(|answer| *answer != Answer::Absent) {
            return Err(Stop::no(format!("{name}: a put into the new pool was refused")));
        }
    }
    Ok(pool)
}

/// Reads the new pool back before it is written: it holds the pairs and no others.
fn holds(pool: &Pool<'_>, pairs: &[Pair]) -> Result<(), Stop> {
    match mount(&pool.bytes) {
        Ok(mounted) if tree::pairs(&mounted.nodes) == pairs => Ok(()),
        _ => Err(Stop::no("the new pool does not hold the pairs, and is not written")),
    }
}

/// What was sure, doubtful and lost of the old pool.
fn told(name: &str, remains: &Remains, all: bool) -> String {
    let (sure, doubtful) = remains.counts();
    let doubtful = match (doubtful, all) {
        (0, _) => "none".to_string(),
        (_, true) => format!("{}, the likeliest of each key put too", counted(doubtful, "pair")),
        (_, false) => format!("{}, left out; --all takes the likeliest of each key", counted(doubtful, "pair")),
    };
    let mut text = format!("{name}\n");
    text.push_str(&line("sure", &format!("{}, put into the new pool", counted(sure, "pair"))));
    text.push_str(&line("doubtful", &doubtful));
    text.push_str(&lines("lost", &remains.lost));
    let others: Vec<String> = remains.notes.iter().filter(|note| !remains.lost.contains(note)).cloned().collect();
    text.push_str(&lines("damage", &others));
    text
}

/// How many lines of a kind are told.
const MOST_LINES: usize = 20;

fn lines(what: &str, all: &[String]) -> String {
    if all.is_empty() {
        return line(what, "none that can be told");
    }
    let more = all.len().saturating_sub(MOST_LINES);
    let more = (more > 0).then(|| line(what, &format!("and {more} more")));
    all.iter().take(MOST_LINES).map(|words| line(what, words)).chain(more).collect()
}

/// What the new pool is like, and why.
fn made(name: &str, bytes: &[u8], plan: &Plan, tariff: &Chosen) -> String {
    let numbers = tariff.numbers.map(|number| number.to_string()).join(" ");
    let mut text = format!("{name}\n");
    text.push_str(&line("blocks", &format!("{}: {}", plan.blocks, plan.why)));
    text.push_str(&line("tariff", &format!("{numbers}: {}", tariff.from)));
    let figures = stats::figures(bytes).into_iter();
    figures.filter(|(what, _)| ["nodes", "leaves", "room"].contains(what)).for_each(|(what, figure)| {
        text.push_str(&line(what, &figure));
    });
    text
}

fn line(what: &str, words: &str) -> String {
    format!("  {what:<9} {words}\n")
}

#[cfg(test)]
mod tests {
    use crate::foreign::flaw::FLAWS;
    use crate::foreign::{Build, PoolStyle};
    use crate::layout::{page_range, MIN_BLOCKS, PAGE_BYTES};
    use crate::mount;
    use crate::random::Random;
    use crate::tool::csv;
    use crate::tool::trial::{said, text, Folder};
    use crate::tree;
    use crate::wire::TAG_TARIFF;

    /// A pool of four blocks with so many ascending keys, each with twice itself.
    fn ascending(folder: &Folder, count: u32) -> (String, String) {
        let pool = folder.prepared("old");
        let csv: String = (0..count).map(|key| format!("{key},{}\n", 2 * key)).collect();
        std::fs::write(folder.file("csv"), &csv).expect("is written");
        text(&["import", &pool, &folder.file("csv")]);
        (pool, csv)
    }

    #[test]
    fn a_pool_without_ids_has_room_again_in_as_many_blocks() {
        let folder = Folder::new("rebuild");
        let (old, csv) = ascending(&folder, 240);
        assert_eq!(said(&["put", &old, "240", "1"]).status, 1, "no id is left");
        let (new, before) = (folder.file("new"), std::fs::read(&old).expect("is there"));
        let told = text(&["rebuild", &old, &new, "4"]);
        for part in [
            "  sure      240 pairs, put into the new pool\n  doubtful  none\n  lost      none that can be told\n",
            "  blocks    4: as given\n",
            "  tariff    3 1 2 1 4 4 3 2: the old one, on page ",
            "  nodes     14 of 20: ",
        ] {
            assert!(told.contains(part), "{part}: {told}");
        }
        assert_eq!(text(&["export", &new]), csv);
        text(&["put", &new, "240", "1"]);
        assert!(std::fs::read(&old).expect("is there") == before, "the old pool is not written");
        let told = text(&["rebuild", &old, &folder.file("larger")]);
        assert!(told.contains("  blocks    5: the fewest with room for 60 keys more, whatever they are\n"), "{told}");
    }

    #[test]
    fn what_was_sure_doubtful_and_lost_is_told() {
        let folder = Folder::new("rebuild-lost");
        let (old, csv) = ascending(&folder, 100);
        let mut bytes = std::fs::read(&old).expect("is there");
        let mounted = mount::mount(&bytes).expect("opens");
        let leaf = mounted.nodes.iter().position(|node| node.find(40).is_ok() && node.is_leaf()).expect("a leaf");
        let page = mounted.rows[leaf].pages[0];
        bytes[page_range(page)][20..60].fill(0);
        std::fs::write(&old, &bytes).expect("is written");
        let (new, more) = (folder.file("new"), folder.file("more"));
        let rebuilt = said(&["rebuild", &old, &new]);
        assert_eq!(rebuilt.status, 1);
        let lost = format!("\n  lost      page {page} does not check (");
        assert!(rebuilt.text.contains(&lost) && rebuilt.text.contains("no one byte mends it\n"), "{rebuilt:?}");
        assert!(rebuilt.text.contains("\n  damage    none"), "what is lost is told once: {rebuilt:?}");
        assert!(rebuilt.text.contains("left out; --all takes the likeliest of each key"), "{rebuilt:?}");
        let sure = text(&["export", &new]);
        assert!(sure.lines().all(|line| csv.contains(&format!("{line}\n"))), "a sure pair is a true one");
        let all = said(&["rebuild", &old, &more, "--all"]);
        assert!(all.status == 1 && all.text.contains("the likeliest of each key put too"), "{all:?}");
        assert!(text(&["export", &more]).lines().count() > sure.lines().count());
        assert_eq!(said(&["check", &new]).status, 0);
    }

    #[test]
    fn damage_that_cost_nothing_is_told_and_no_more() {
        let folder = Folder::new("rebuild-dead");
        let (old, csv) = ascending(&folder, 100);
        let new = folder.file("new");
        let mut bytes = std::fs::read(&old).expect("is there");
        // Prepare's log page, which is dead by now: the two sums tell which byte it was.
        bytes[page_range(0)][22] ^= 1;
        std::fs::write(&old, &bytes).expect("is written");
        let told = text(&["rebuild", &old, &new]);
        assert!(told.contains("\n  damage    page 0 does not check (byte 28: the sum differs): with "), "{told}");
        assert_eq!(text(&["export", &new]), csv);
    }

    #[test]
    fn a_node_on_no_page_is_lost_with_its_keys() {
        let folder = Folder::new("rebuild-node");
        let flaw = FLAWS.iter().find(|flaw| flaw.name == "a node on no page").expect("a flaw");
        let style = PoolStyle { blocks: 6, build: Build::Any };
        let mut random = Random::new(4);
        let pools: Vec<Vec<u8>> = (0..40).filter_map(|_| flaw.make(&mut random, style)).take(5).collect();
        assert!(pools.len() == 5);
        for pool in pools {
            std::fs::write(folder.file("old"), pool).expect("is written");
            let rebuilt = said(&["rebuild", &folder.file("old"), &folder.file("new"), "--all", "--force"]);
            assert!(rebuilt.status == 1 && rebuilt.text.contains(": on no page\n"), "{rebuilt:?}");
        }
    }

    #[test]
    fn used_up_sequence_numbers_cost_no_pair() {
        let folder = Folder::new("rebuild-eight");
        let flaw = FLAWS.iter().find(|flaw| flaw.name == "a sequence number above 4,000,000,000").expect("a flaw");
        let mut random = Random::new(8);
        let style = PoolStyle { blocks: 8, build: Build::Any };
        let pool = (0..100).find_map(|_| flaw.make(&mut random, style)).expect("one");
        let pairs = tree::pairs(&mount::read(&pool).expect("is read").nodes);
        let (old, new) = (folder.file("old"), folder.file("new"));
        std::fs::write(&old, pool).expect("is written");
        assert_eq!(said(&["put", &old, "7", "7"]).status, 1);
        text(&["rebuild", &old, &new]);
        assert_eq!(text(&["export", &new]), csv::lines(&pairs));
        assert_eq!(said(&["check", &new]).status, 0);
    }

    #[test]
    fn blocks_and_tariff_are_the_given_ones() {
        let folder = Folder::new("rebuild-given");
        let (old, csv) = ascending(&folder, 100);
        let new = folder.file("new");
        let nine = "9 1 2 3 4 5 6 7 8".split(' ');
        let line: Vec<&str> = ["rebuild", &old, &new].into_iter().chain(nine.clone()).collect();
        let told = text(&line);
        assert!(told.contains("  blocks    9: as given\n  tariff    1 2 3 4 5 6 7 8: as given\n"), "{told}");
        assert_eq!(text(&["export", &new]), csv);
        let eight: Vec<&str> = ["rebuild", &old, &new, "--force"].into_iter().chain(nine.clone().skip(1)).collect();
        assert!(text(&eight).contains("  blocks    4: the fewest"));
        for wrong in [2, 7, 10] {
            let line: Vec<&str> =
                ["rebuild", &old, &new, "--force"].into_iter().chain(nine.clone().cycle().take(wrong)).collect();
            assert_eq!(said(&line).status, 2, "{wrong} numbers");
        }
        assert_eq!(said(&["rebuild", &old, &new, "65", "--force"]).status, 1, "no pool has so many");
        let mut pool = std::fs::read(&old).expect("is there");
        let checkpoints = (0..pool.len() / PAGE_BYTES).filter(|&page| pool[page_range(page)][7] == TAG_TARIFF);
        let checkpoints: Vec<usize> = checkpoints.collect();
        assert!(!checkpoints.is_empty());
        checkpoints.into_iter().for_each(|page| pool[page_range(page)].fill(0xFF));
        std::fs::write(&old, pool).expect("is written");
        let told = said(&["rebuild", &old, &new, "--all", "--force"]).text;
        assert!(told.contains("document 01's worked one: the old pool has none that can be read"), "{told}");
    }

    #[test]
    fn a_dump_becomes_a_pool() {
        let folder = Folder::new("rebuild-dump");
        let (old, csv) = ascending(&folder, 100);
        let (dump, new) = (folder.file("dump"), folder.file("new"));
        let bytes = std::fs::read(&old).expect("is there");
        let spared = bytes.chunks(PAGE_BYTES).flat_map(|page| page.iter().copied().chain([0x5A; 16]));
        std::fs::write(&dump, spared.collect::<Vec<u8>>()).expect("is written");
        for told in [&["--spare", "16"][..], &[]] {
            let line: Vec<&str> = ["rebuild", &dump, &new, "--force"].into_iter().chain(told.iter().copied()).collect();
            text(&line);
            assert_eq!(text(&["export", &new]), csv, "{told:?}");
        }
        assert_eq!(said(&["rebuild", &dump, &dump, "--force"]).status, 2, "a dump is not written over");
    }

    #[test]
    fn what_cannot_be_rebuilt_leaves_the_files() {
        let folder = Folder::new("no-rebuild");
        let (old, _) = ascending(&folder, 240);
        let before = std::fs::read(&old).expect("is there");
        let link = folder.file("link");
        std::os::unix::fs::symlink(&old, &link).expect("a link");
        for new in [&old, &link] {
            assert_eq!(said(&["rebuild", &old, new, "--force"]).status, 2, "{new} is the old pool");
        }
        let other = folder.file("other");
        std::fs::write(&other, "kept").expect("is written");
        assert_eq!(said(&["rebuild", &old, &other]).status, 2, "it is there already");
        assert_eq!(std::fs::read(&other).expect("is there"), b"kept");
        std::fs::write(&other, vec![0x5A; MIN_BLOCKS * 16_384]).expect("is written");
        let nothing = said(&["rebuild", &other, &folder.file("new")]);
        assert!(nothing.status == 1 && nothing.note.contains("no pair is sure"), "{nothing:?}");
        assert!(std::fs::read(&old).expect("is there") == before);
        assert_eq!(folder.names(), ["csv", "link", "old", "other"]);
    }
}
