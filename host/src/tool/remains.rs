//! What is left of a pool: every pair that can still be read, and what is doubtful about it.

use std::collections::BTreeMap;

use super::doubts::{Doubts, Left};
use super::progress::Progress;
use crate::layout::{BLOCK_BYTES, PAGE_BYTES};
use crate::mount::Survey;
use crate::node::{Change, Node, Pair, Shape};
use crate::page::{self, Content};
use crate::repair::{repair, Repair};
use crate::sound::{self, Bounds, Part, Walk};

/// A value that was found for a key, and why it may be wrong.
#[derive(Clone, PartialEq, Eq, Debug)]
pub(super) struct Found {
    pub value: u32,
    pub doubt: Option<String>,
}

/// All that was found.
#[derive(Default)]
pub(super) struct Remains {
    /// What was found of each key, the likeliest first.
    pub found: BTreeMap<u32, Vec<Found>>,
    /// What is to be known of the pool as a whole.
    pub notes: Vec<String>,
    /// Nodes and pages of which nothing can be read as it was.
    pub lost: Vec<String>,
}

/// How many older versions of a node are tried: a page can be made that has one in every entry.
const MOST_OLDER: usize = 60;

/// Reads what is left of a pool of any length and any bytes.
pub(super) fn remains(pool: &[u8]) -> Remains {
    let mut remains = Remains::default();
    let mut pool = pool.to_vec();
    let repairs = remains.repair_pages(&mut pool);
    let survey = Survey::of(&pool, pool.len().div_ceil(BLOCK_BYTES).max(1));
    let doubts = Doubts::of(&pool, &survey, &repairs);
    remains.notes.extend(doubts.of_all.iter().cloned());
    remains.read_tree(&survey, &doubts);
    remains.read_broken(&survey);
    remains
}

impl Remains {
    /// How many keys have a value for sure, and how many values are doubtful.
    pub fn counts(&self) -> (usize, usize) {
        let sure = self.found.values().filter(|found| found.iter().any(|found| found.doubt.is_none())).count();
        (sure, self.found.values().flatten().filter(|found| found.doubt.is_some()).count())
    }

    /// Says whether nothing is doubtful and nothing is lost.
    pub fn is_whole(&self) -> bool {
        self.lost.is_empty() && self.counts().1 == 0
    }

    /// Notes a pair; a value that is found again has the lesser doubt.
    fn note(&mut self, pair: Pair, doubt: Option<String>) {
        let found = self.found.entry(pair.key).or_default();
        match found.iter_mut().find(|found| found.value == pair.pointer) {
            Some(before) if doubt.is_none() => before.doubt = None,
            Some(_) => {}
            None => found.push(Found { value: pair.pointer, doubt }),
        }
        found.sort_by_key(|found| found.doubt.is_some());
    }

    /// Changes the byte of each page that one byte spoils, in this copy of the pool.
    fn repair_pages(&mut self, pool: &mut [u8]) -> BTreeMap<usize, Repair> {
        let (mut repairs, mut notes, mut lost) = (BTreeMap::new(), Vec::new(), Vec::new());
        let mut progress = Progress::new("pages read");
        for (page, bytes) in pool.as_chunks_mut::<PAGE_BYTES>().0.iter_mut().enumerate() {
            progress.tell(page);
            let flaws = page::examine(bytes).flaws;
            let Some(first) = flaws.first() else { continue };
            let found = repair(bytes, &flaws);
            let why = format!("({first}): {}", mending(&found));
            notes.push((page, why.clone()));
            match found {
                None => lost.push((page, why)),
                Some(found) => {
                    *bytes = found.of(bytes);
                    repairs.insert(page, found);
                }
            }
        }
        self.notes.extend(in_runs(&notes));
        self.lost.extend(in_runs(&lost));
        repairs
    }

    /// Reads the leaves by their greatest versions; and, where that makes no node, by older ones.
    fn read_tree(&mut self, survey: &Survey, doubts: &Doubts) {
        let counted = survey.count();
        let count = counted.unwrap_or_else(|| survey.ids());
        let mut ceilings = vec![u32::MAX; count];
        let newest: Vec<Left> = survey.gather_up_to(&ceilings).into_iter().map(Left::of).collect();
        let nodes: Vec<Option<&Node>> = newest.iter().map(|left| left.node.as_ref().ok()).collect();
        let walk = sound::walk(&nodes);
        for (id, left) in newest.iter().enumerate() {
            self.read_leaf(id, left, &walk, doubts);
            self.note_lost(id, left, walk.reached[id], counted.is_some());
        }
        let mut broken: Vec<(usize, u32)> = versions_of_broken(&newest);
        for _ in 0..MOST_OLDER {
            broken.iter().for_each(|&(id, version)| ceilings[id] = version - 1);
            let older: Vec<Left> = survey.gather_up_to(&ceilings).into_iter().map(Left::of).collect();
            for &(id, _) in &broken {
                let doubt = format!("from version {} of node {id}, which is an older one", older[id].version);
                older[id].leaf_pairs().iter().for_each(|pair| self.note(*pair, Some(doubt.clone())));
            }
            let before = broken;
            broken = versions_of_broken(&older);
            broken.retain(|(id, _)| before.iter().any(|(of, _)| of == id));
        }
    }

    /// Notes a node that cannot be read; without a whole checkpoint only one that a page or a branch names.
    fn note_lost(&mut self, id: usize, left: &Left, bounds: Option<Bounds>, is_counted: bool) {
        let is_named = is_counted || bounds.is_some() || left.version > 0;
        if let Some(why) = left.node.as_ref().err().filter(|_| is_named) {
            let keys = bounds.map(|bounds| format!(", {bounds}")).unwrap_or_default();
            self.lost.push(format!("node {id}{keys}: {why}"));
        }
    }

    fn read_leaf(&mut self, id: usize, left: &Left, walk: &Walk<'_>, doubts: &Doubts) {
        let mut of_node = doubts.of_node(left);
        of_node.extend(left.node.as_ref().err().map(|why| format!("node {id}: {why}")));
        let is_whole = |flaw: &&sound::Flaw| flaw.id == id && flaw.part == Part::Whole;
        of_node.extend(walk.flaws.iter().find(is_whole).map(|flaw| format!("node {id}: {}", flaw.why)));
        if walk.reached[id].is_none() && of_node.is_empty() {
            of_node.push(format!("node {id}: no branch that can be read leads to it"));
        }
        for pair in left.leaf_pairs() {
            let key = |flaw: &&sound::Flaw| flaw.id == id && flaw.part == Part::Key(pair.key);
            let of_pair = walk.flaws.iter().find(key).map(|flaw| format!("node {id}: {}", flaw.why));
            let doubt: Vec<String> = of_node.iter().cloned().chain(of_pair).collect();
            self.note(*pair, (!doubt.is_empty()).then(|| doubt.join("; ")));
        }
    }

    /// Reads what can be read of pages that do not check.
    fn read_broken(&mut self, survey: &Survey) {
        for (page, reading) in &survey.broken {
            let doubt = Some(format!("from page {page}, which does not check"));
            match reading.page.as_ref().map(|page| &page.content) {
                Some(Content::Node { node, .. }) if node.is_leaf() => {
                    node.pairs.iter().for_each(|pair| self.note(*pair, doubt.clone()));
                }
                Some(Content::Log(entries)) => {
                    let branch = |of: u16| entries.iter().any(|e| e.id == of && is_branch_link(e.change));
                    for entry in entries.iter().filter(|entry| !branch(entry.id)) {
                        if let Change::Put(pair) = entry.change {
                            self.note(pair, doubt.clone());
                        }
                    }
                }
                _ => {}
            }
        }
    }
}

fn is_branch_link(change: Change) -> bool {
    matches!(change, Change::Link(Shape::Branch, _))
}

fn versions_of_broken(left: &[Left]) -> Vec<(usize, u32)> {
    let broken = left.iter().enumerate().filter(|(_, left)| left.version > 0 && left.node.is_err());
    broken.map(|(id, left)| (id, left.version)).collect()
}

/// How a page is mended, if it is.
fn mending(found: &Option<Repair>) -> String {
    match found {
        Some(Repair { byte, value }) => format!("with {value:02x} at byte {byte} it would, and is read so"),
        None => "no one byte mends it".to_string(),
    }
}

/// What is wrong with pages, a line each; where it is the same with pages in a row, a line for all of them.
fn in_runs(notes: &[(usize, String)]) -> Vec<String> {
    let runs = notes.chunk_by(|(page, why), (next, other)| page + 1 == *next && why == other);
    let line = |run: &[(usize, String)]| match run {
        [(page, why)] => format!("page {page} does not check {why}"),
        [(page, why), .., (last, _)] => format!("pages {page} to {last} do not check {why}"),
        [] => String::new(),
    };
    runs.map(line).collect()
}

#[cfg(test)]
mod tests {
    use super::*;
    use crate::book::{Book, SecondBook};
    use crate::command::{answer_room, encode, Command};
    use crate::damage;
    use crate::foreign::flaw::FLAWS;
    use crate::foreign::{self, Build, PoolStyle};
    use crate::layout::{page_range, table_bytes, BLANK, MAX_BLOCKS, MIN_BLOCKS};
    use crate::mount;
    use crate::random::Random;
    use crate::tree;

    type Map = BTreeMap<u32, u32>;

    fn map(pairs: Vec<Pair>) -> Map {
        pairs.into_iter().map(|pair| (pair.key, pair.pointer)).collect()
    }

    /// A foreign pool and its pairs.
    fn pool(random: &mut Random) -> (Vec<u8>, Map) {
        let style = PoolStyle { blocks: random.between(MIN_BLOCKS, 8), build: Build::Any };
        let made = foreign::make(random, style);
        (made.pool, map(tree::pairs(&made.paper.nodes)))
    }

    fn sure(remains: &Remains) -> Map {
        let sure = |(&key, found): (&u32, &Vec<Found>)| {
            found.iter().find(|found| found.doubt.is_none()).map(|found| (key, found.value))
        };
        remains.found.iter().filter_map(sure).collect()
    }

    /// How many of the pairs were found, doubtful or not.
    fn found(remains: &Remains, pairs: &Map) -> usize {
        let is_found = |(key, value): &(&u32, &u32)| {
            remains.found.get(key).is_some_and(|found| found.iter().any(|found| found.value == **value))
        };
        pairs.iter().filter(is_found).count()
    }

    #[test]
    fn a_pool_that_opens_is_read_whole_and_without_a_doubt() {
        let mut random = Random::new(2);
        for _ in 0..40 {
            let (pool, pairs) = pool(&mut random);
            let remains = remains(&pool);
            assert_eq!((sure(&remains), remains.notes), (pairs, vec![]));
        }
    }

    #[test]
    fn a_changed_byte_loses_no_pair_and_makes_none_up() {
        let mut random = Random::new(21);
        let (mut all, mut without_doubt) = (0, 0);
        for _ in 0..200 {
            let (mut pool, pairs) = pool(&mut random);
            damage::change_byte(&mut random, &mut pool);
            let remains = remains(&pool);
            let sure = sure(&remains);
            assert!(sure.iter().all(|(key, value)| pairs.get(key) == Some(value)), "a sure pair is a true one");
            assert_eq!(found(&remains, &pairs), pairs.len());
            (all, without_doubt) = (all + pairs.len(), without_doubt + sure.len());
        }
        assert!(100 * without_doubt > 90 * all, "{without_doubt} of {all} are sure");
    }

    #[test]
    fn bytes_changed_under_a_mended_sum_spoil_little() {
        let mut random = Random::new(27);
        let (mut all, mut read, mut wrong, mut refused) = (0, 0, 0, 0);
        for _ in 0..200 {
            let (mut pool, pairs) = pool(&mut random);
            damage::change_mended(&mut random, &mut pool);
            let remains = remains(&pool);
            match mount::read(&pool) {
                Ok(mounted) => assert_eq!(sure(&remains), map(tree::pairs(&mounted.nodes))),
                Err(_) => {
                    refused += 1;
                    wrong += sure(&remains).into_iter().filter(|(k, v)| pairs.get(k) != Some(v)).count();
                    (all, read) = (all + pairs.len(), read + found(&remains, &pairs));
                }
            }
        }
        // A change under a right sum can make up a pair that nothing tells from a true one; few do.
        assert!(refused >= 100 && 100 * read > 99 * all && 1000 * wrong < all, "{refused}: {read} of {all}, {wrong}");
    }

    #[test]
    fn pages_that_are_lost_leave_no_false_pair_for_sure() {
        let mut random = Random::new(22);
        let (mut all, mut read) = (0, 0);
        for round in 0..100 {
            let (mut pool, pairs) = pool(&mut random);
            let pages = damage::written_pages(&pool);
            for _ in 0..random.between(1, 3) {
                let bytes = &mut pool[page_range(random.pick(&pages))];
                match round % 2 {
                    0 => bytes.copy_from_slice(&random.bytes(PAGE_BYTES)),
                    _ => bytes[random.below(400)..].fill(0),
                }
            }
            let remains = remains(&pool);
            let wrong: Vec<(u32, u32)> = sure(&remains).into_iter().filter(|(k, v)| pairs.get(k) != Some(v)).collect();
            assert_eq!(wrong, [], "round {round}: {:?}", remains.notes);
            (all, read) = (all + pairs.len(), read + found(&remains, &pairs));
        }
        assert!(100 * read > 85 * all, "{read} of {all} are found");
    }

    /// A pool of our own in which every key was overwritten many times, and its pairs.
    fn used_pool(random: &mut Random) -> (Vec<u8>, Map) {
        let mut pool = vec![BLANK; 6 * BLOCK_BYTES];
        let mut pairs = Map::new();
        assert_eq!(SecondBook.prepare(&mut pool, [3, 1, 2, 1, 4, 4, 3, 2]), 0);
        for value in 0..60 {
            let keys: Vec<u32> = (0..20).map(|_| random.below(100) as u32).collect();
            let commands: Vec<Command> = keys.iter().map(|&key| Command::Put { key, value }).collect();
            let (mut table, mut answers) = (vec![0; table_bytes(pool.len())], vec![0; answer_room(&commands)]);
            assert_eq!(SecondBook.batch(&mut pool, &mut table, &encode(&commands), &mut answers).number, 0);
            pairs.extend(keys.into_iter().map(|key| (key, value)));
        }
        (pool, pairs)
    }

    #[test]
    fn an_older_value_is_never_taken_for_sure() {
        let mut random = Random::new(28);
        let (whole, pairs) = used_pool(&mut random);
        assert_eq!(sure(&remains(&whole)), pairs);
        let (mut all, mut without_doubt, mut older) = (0, 0, 0);
        for page in damage::written_pages(&whole) {
            let mut pool = whole.clone();
            pool[page_range(page)][20..].copy_from_slice(&random.bytes(PAGE_BYTES - 20));
            let remains = remains(&pool);
            let sure = sure(&remains);
            assert!(sure.iter().all(|(key, value)| pairs.get(key) == Some(value)), "page {page}: {:?}", remains.notes);
            (all, without_doubt) = (all + pairs.len(), without_doubt + sure.len());
            older += pairs.len() - found(&remains, &pairs);
        }
        assert!(older > 0, "some pages held the only copy of a value");
        assert!(2 * without_doubt > all, "{without_doubt} of {all} are sure");
    }

    #[test]
    fn a_block_that_lost_pages_makes_all_doubtful() {
        let mut random = Random::new(23);
        let style = PoolStyle { blocks: MIN_BLOCKS, build: Build::Any };
        for (name, words) in [
            ("a blank page before a written one", "a page is lost"),
            ("a partly written block without the newest page", "pages may be lost"),
        ] {
            let flaw = FLAWS.iter().find(|flaw| flaw.name == name).expect(name);
            let pools: Vec<Vec<u8>> = (0..100).filter_map(|_| flaw.make(&mut random, style)).take(20).collect();
            assert!(pools.len() > 5, "{name}");
            for remains in pools.iter().map(|pool| remains(pool)) {
                assert!(sure(&remains).is_empty(), "{name}");
                assert!(remains.notes.iter().any(|note| note.contains(words)), "{:?}", remains.notes);
            }
        }
    }

    #[test]
    fn every_flaw_leaves_what_its_tree_still_spells() {
        let mut random = Random::new(24);
        for flaw in FLAWS {
            let styles = (MIN_BLOCKS..10).cycle().map(|blocks| PoolStyle { blocks, build: Build::Any });
            let pools = styles.take(400).filter_map(|style| flaw.make(&mut random, style)).take(3);
            let pools: Vec<Vec<u8>> = pools.collect();
            assert!(!pools.is_empty(), "{}", flaw.name);
            for pool in pools {
                let remains = remains(&pool);
                if let Some(mounted) = mount::examine(&pool).mounted {
                    let pairs = map(tree::pairs(&mounted.nodes));
                    assert_eq!(found(&remains, &pairs), pairs.len(), "{}", flaw.name);
                }
                if matches!(flaw.name, "no blank block" | "a sequence number above 4,000,000,000") {
                    assert_eq!(sure(&remains).len(), remains.found.len(), "{}: nothing is lost", flaw.name);
                }
            }
        }
    }

    #[test]
    fn a_wrong_tree_is_doubted_where_it_is_wrong() {
        let mut random = Random::new(25);
        for (name, words) in [
            ("keys that descend", "keys do not ascend"),
            ("a 25th key for a moment", "more than 24 keys after an entry"),
            ("no link", "no entry sets the link"),
            ("a sequence number twice", "have one sequence number"),
            ("a version that is a page's sequence number", "its version is a page's sequence number"),
            ("a newest page that is no checkpoint page", "no whole checkpoint closes it"),
        ] {
            let flaw = FLAWS.iter().find(|flaw| flaw.name == name).expect(name);
            let style = PoolStyle { blocks: 6, build: Build::Any };
            let doubted = |pool: Vec<u8>| {
                let remains = remains(&pool);
                let doubts = remains.found.values().flatten().filter_map(|found| found.doubt.as_ref());
                doubts.filter(|doubt| doubt.contains(words)).count()
            };
            let counts: Vec<usize> = (0..60).filter_map(|_| flaw.make(&mut random, style)).map(doubted).collect();
            assert!(counts.iter().any(|&count| count > 0), "{name}: {counts:?}");
        }
    }

    #[test]
    fn any_bytes_of_any_length_are_taken() {
        let mut random = Random::new(26);
        for bytes in [0, 1, 511, 512, 16_384, 70_000] {
            let remains = remains(&random.bytes(bytes));
            assert!(remains.notes.last().is_some_and(|note| note.contains("no length of a pool")));
        }
        let (whole, pairs) = pool(&mut random);
        let cut = &whole[..whole.len() - 1];
        assert!(sure(&remains(cut)).is_empty());
        assert!(found(&remains(cut), &pairs) > 0);
        assert!(remains(&vec![BLANK; MAX_BLOCKS * BLOCK_BYTES]).found.is_empty());
    }
}
