//! The limits of pages, nodes, checkpoints and sequence numbers: at each limit and one past it, on both books.

use crate::common::{
    checkpoint_of, delete, entries_of, get, mend, number_of, number_with, number_with_checkpoint, put,
};
use crate::common::{good, Fixture, CHECKPOINT_PAGE, FIRST_CHECKPOINT_PAGE, FREE, LOG_PAGE, WORKED};
use crate::spelled::{added, checkpoint, leaf, log_page, node_page, pool_of, pool_of_logs, pool_of_tree};
use crate::spelled::{LAST_LEAF, LEAF_STEP, VERSION};
use yokehour_host::account::{Mode, Tariff};
use yokehour_host::command::Command;
use yokehour_host::layout::{node_limit, page_range, BLANK, MIN_BLOCKS, NO_LINK, PAGE_BYTES};
use yokehour_host::mount::mount;
use yokehour_host::node::{Change, Pair};
use yokehour_host::page::{Checkpoint, Content, Entry, Page, Score};
use yokehour_host::reference::PaperBook;

#[test]
fn a_node_page_has_up_to_24_keys() {
    for (keys, expected) in [(0, 0), (1, 0), (24, 0), (25, 5)] {
        let pages = [vec![node_page(1, 0, leaf(0..keys, NO_LINK))], checkpoint(2, 1)].concat();
        assert_eq!(number_of(pool_of(4, &pages)), expected, "{keys} keys");
        let old = [vec![node_page(2, 700, leaf(0..keys, 9)), log_page(3, &[LAST_LEAF])], checkpoint(4, 1)].concat();
        assert_eq!(number_of(pool_of(4, &old)), expected, "{keys} keys on a page that means nothing");
    }
}

#[test]
fn a_log_node_has_up_to_24_keys_after_every_entry() {
    let keys = |count: u32| (0..count).map(added).collect::<Vec<_>>();
    let gone = |key: u32| Change::Delete { key };
    let table = [
        (0, [keys(24), vec![LAST_LEAF]].concat()),
        (7, [keys(25), vec![LAST_LEAF]].concat()),
        (7, [keys(25), vec![gone(0), LAST_LEAF]].concat()),
        (7, [vec![LAST_LEAF], keys(25), vec![gone(24)]].concat()),
        (0, [keys(24), vec![gone(0), added(24), LAST_LEAF]].concat()),
        (0, [keys(24), vec![added(0), added(23), LAST_LEAF]].concat()),
    ];
    for (row, (expected, changes)) in table.into_iter().enumerate() {
        assert_eq!(number_of(pool_of_logs(&[log_page(2, &changes)])), expected, "row {row}");
    }
}

#[test]
fn a_log_page_has_1_to_27_entries() {
    for (entries, expected) in [(0, 5), (1, 0), (27, 0)] {
        assert_eq!(number_of(pool_of_logs(&[log_page(2, &vec![LAST_LEAF; entries])])), expected, "{entries} entries");
    }
    // 28 of them leave one byte of the page: the sum's tag, or none.
    let mut pool = pool_of_logs(&[log_page(2, &[LAST_LEAF])]);
    let entry = pool[7..25].to_vec();
    for last in [0x1F, BLANK] {
        let image = [&pool[..7], &entry.repeat(28), &[last]].concat();
        assert_eq!(image.len(), PAGE_BYTES);
        pool[page_range(0)].copy_from_slice(&image);
        assert_eq!(number_of(pool.clone()), 5, "28 entries, then {last:02x}");
    }
}

/// The sequence numbers and entry counts of the log pages behind prepare's two, after puts of one key in one batch.
fn pages_after(puts: usize) -> (Fixture, Vec<(u32, usize)>) {
    let mut fixture = Fixture::prepared(MIN_BLOCKS, FREE);
    fixture.batch(&vec![put(1, 2); puts]);
    let mut pages: Vec<Page> = (2..).map_while(|page| read(&fixture.pool, page)).collect();
    assert!(matches!(pages.pop().expect("is written").content, Content::Checkpoint(_)));
    let logs = pages.iter_mut().map(|page| (page.sequence, entries_of(page).len())).collect();
    (fixture, logs)
}

/// What a page says, nothing if it is blank.
fn read(pool: &[u8], page: usize) -> Option<Page> {
    yokehour_host::page::decode(&pool[page_range(page)]).expect("checks")
}

#[test]
fn the_28th_entry_that_waits_writes_the_27_before_it() {
    assert_eq!(pages_after(1).1, [(4, 1)]);
    assert_eq!(pages_after(27).1, [(4, 27)]);
    assert_eq!(pages_after(28).1, [(4, 27), (5, 1)]);
}

#[test]
fn an_edit_of_a_node_on_three_pages_writes_the_whole() {
    // Prepare's page and two more are three; entries that wait are on none.
    assert_eq!(pages_after(54).1, [(4, 27), (5, 27)]);
    // The 55th edit writes the second of them out first, then key and link under the new version 6.
    let (fixture, pages) = pages_after(55);
    assert_eq!(pages, [(4, 27), (5, 27), (7, 2)]);
    let whole = [Change::Put(Pair { key: 1, pointer: 2 }), LAST_LEAF];
    let whole = whole.map(|change| Entry { id: 0, version: 6, change });
    assert_eq!(*entries_of(&mut fixture.page(4)), whole);
    // A page each in batches of their own: the third batch finds three pages.
    let mut fixture = Fixture::prepared(MIN_BLOCKS, FREE);
    let versions = [1, 2, 3].map(|key| {
        fixture.batch(&[put(key, key)]);
        entries_of(&mut fixture.page(2 * key as usize))[0].version
    });
    assert_eq!(versions, [1, 1, 8]);
}

#[test]
fn a_log_node_is_on_up_to_three_pages() {
    // The last changes nothing, and counts all the same.
    let changes = [LAST_LEAF, added(1), added(2), Change::Delete { key: 9 }];
    let logs: Vec<Page> = (2..).zip(&changes).map(|(sequence, change)| log_page(sequence, &[*change])).collect();
    assert_eq!([1, 3, 4].map(|count| number_of(pool_of_logs(&logs[..count]))), [0, 0, 7]);
    // A page of an older version does not count, nor does an entry of another node.
    let with = |change: fn(&mut Entry)| {
        let mut logs: Vec<Page> =
            logs.iter().map(|page| Page { sequence: page.sequence + 9, ..page.clone() }).collect();
        logs.iter_mut().for_each(|page| entries_of(page)[0].version = 10);
        change(&mut entries_of(&mut logs[3])[0]);
        number_of(pool_of_logs(&logs))
    };
    assert_eq!(with(|_| ()), 7);
    assert_eq!(with(|entry| entry.version = 9), 0);
    assert_eq!(with(|entry| entry.id = 1), 0);
}

#[test]
fn a_version_is_from_1_and_below_its_pages_sequence_number() {
    let numbers_of = |id: u16| {
        let with = |version: u32| {
            let mut log = log_page(9, &[LAST_LEAF, LAST_LEAF]);
            entries_of(&mut log)[0] = Entry { id: 0, version: 5, change: LAST_LEAF };
            entries_of(&mut log)[1] = Entry { id, version, change: LAST_LEAF };
            number_of(pool_of_logs(&[log]))
        };
        // The page has 9, the checkpoint 10; no page has the others.
        [0, 1, 5, 8, 9, 10, 11, u32::MAX].map(with)
    };
    assert_eq!(numbers_of(0), [5, 0, 0, 0, 5, 5, 5, 5]);
    assert_eq!(numbers_of(700), [5, 0, 0, 0, 5, 5, 5, 5], "of an id at or above the count");
}

/// The number of the good call with its old checkpoint page another: no more than its own bytes are asked of it.
fn number_with_old_page(tariff: bool, scores: usize, count: bool) -> u8 {
    number_with(FIRST_CHECKPOINT_PAGE, |page| {
        let scores = vec![Score { id: 0xFFFF, score: u32::MAX }; scores];
        let tariff = tariff.then_some([u32::MAX; 8]);
        *checkpoint_of(page) = Checkpoint { tariff, scores, count: count.then_some(0) };
    })
}

#[test]
fn a_checkpoint_page_has_up_to_50_scores_behind_a_tariff_and_54_elsewhere() {
    for (tariff, full) in [(true, 50), (false, 54)] {
        let last = |scores: usize| number_with_old_page(tariff, scores, true);
        assert_eq!([0, 1, full - 1, full].map(last), [5, 0, 0, 0], "a last page; one score more has no room");
        let other = |scores: usize| number_with_old_page(tariff, scores, false);
        assert_eq!([0, 1, full - 1, full, full + 1].map(other), [5, 5, 5, 0, 5], "a page before the last is full");
    }
}

/// A pool of 13 blocks with exactly so many nodes, grown by ascending keys in one batch.
fn grown(nodes: usize) -> Fixture {
    let tariff = Tariff::from_numbers(FREE).expect("in range");
    let mut paper = PaperBook::prepared(node_limit(13), tariff);
    let mut puts: Vec<Command> = Vec::new();
    while paper.nodes.len() < nodes {
        puts.push(put(puts.len() as u32, 0));
        paper.batch(&puts[puts.len() - 1..]);
    }
    assert_eq!(paper.nodes.len(), nodes);
    let mut fixture = Fixture::prepared(13, FREE);
    assert_eq!(fixture.batch(&puts).number, 0);
    fixture
}

/// The written pages of a pool by sequence number, each with its place.
fn by_sequence(pool: &[u8]) -> Vec<(usize, Page)> {
    let pages = (0..pool.len() / PAGE_BYTES).filter_map(|page| Some((page, read(pool, page)?)));
    let mut pages: Vec<(usize, Page)> = pages.collect();
    pages.sort_by_key(|(_, page)| page.sequence);
    pages
}

#[test]
fn checkpoints_of_50_51_104_and_105_nodes() {
    let table: [(usize, &[usize]); 4] = [(50, &[50]), (51, &[50, 1]), (104, &[50, 54]), (105, &[50, 54, 1])];
    for (nodes, scores) in table {
        let pages = by_sequence(&grown(nodes).pool);
        let (newest, page) = &pages[pages.len() - 1];
        let (first, sequence) = (newest + 1 - scores.len(), page.sequence + 1 - scores.len() as u32);
        let mut id = 0;
        let of_page = |(at, &count): (usize, &usize)| {
            let scores = (id..id + count).map(|id| Score { id: id as u16, score: 0 }).collect();
            id += count;
            let (tariff, count) = ((at == 0).then_some(FREE), (id == nodes).then_some(nodes as u16));
            let content = Content::Checkpoint(Checkpoint { tariff, scores, count });
            (first + at, Page { sequence: sequence + at as u32, content })
        };
        let expected: Vec<(usize, Page)> = scores.iter().enumerate().map(of_page).collect();
        assert_eq!(pages[pages.len() - scores.len()..], expected, "{nodes} nodes");
        assert!(!matches!(pages[pages.len() - scores.len() - 1].1.content, Content::Checkpoint(_)));
    }
}

#[test]
fn a_count_stands_on_the_newest_checkpoint_page_alone() {
    let Fixture { pool, .. } = grown(51);
    let pages = by_sequence(&pool);
    let [.., (first, _), (last, _)] = &pages[..] else { panic!("two checkpoint pages at least") };
    assert_eq!(number_of(pool.clone()), 0);
    let with = |page: usize, count: Option<u16>| {
        let mut pool = pool.clone();
        mend(&mut pool, page, |page| checkpoint_of(page).count = count);
        number_of(pool)
    };
    assert_eq!([with(*first, Some(51)), with(*first, Some(50)), with(*last, Some(51))], [6, 6, 0]);
    // Without its count the last page is not full, and no checkpoint page at all.
    assert_eq!(with(*last, None), 5);
}

#[test]
fn no_other_page_is_within_the_newest_checkpoint() {
    let Fixture { pool, .. } = grown(51);
    let pages = by_sequence(&pool);
    let at = |from_last: usize| pages[pages.len() - 1 - from_last].clone();
    let ((newest, last), (log, _)) = (at(0), at(2));
    let with = |sequence: u32| {
        let mut pool = pool.clone();
        mend(&mut pool, newest, |page| page.sequence = last.sequence + 1);
        mend(&mut pool, log, |page| page.sequence = sequence);
        number_of(pool)
    };
    // As it was; between the two pages of the checkpoint; behind the second.
    assert_eq!([-2, 0, 2].map(|by| with(last.sequence.wrapping_add_signed(by))), [0, 6, 6]);
}

#[test]
fn a_pool_has_up_to_10_nodes_a_block_but_two() {
    let table = [(4, 20, 0), (4, 21, 7), (5, 30, 0), (5, 31, 7), (64, 620, 0), (64, 621, 7)];
    for (blocks, nodes, expected) in table {
        assert_eq!(number_of(pool_of_tree(blocks, nodes)), expected, "{nodes} nodes in {blocks} blocks");
    }
}

/// What a put between the keys of a leaf is answered with in a pool of so many nodes, and the nodes afterwards.
fn put_into(blocks: usize, nodes: usize, leaf: u32) -> (Vec<String>, usize) {
    let mut fixture = Fixture { pool: pool_of_tree(blocks, nodes), answers: Vec::new() };
    let outcome = fixture.batch(&[put(LEAF_STEP * leaf + 50, 1)]);
    assert_eq!((outcome.number, outcome.charge()), (0, 0));
    (fixture.lines(), mount(&fixture.pool).expect("opens").nodes.len())
}

#[test]
fn a_split_takes_the_last_ids_and_one_too_few_is_9() {
    let (done, refused) = (vec!["800000".to_string()], vec!["8f000109".to_string()]);
    // A full leaf alone: under the last branch, or under a root that has room.
    assert_eq!(put_into(4, 19, 0), (done.clone(), 20));
    assert_eq!(put_into(4, 20, 0), (refused.clone(), 20));
    assert_eq!(put_into(12, 99, 93), (done.clone(), 100));
    assert_eq!(put_into(12, 100, 94), (refused.clone(), 100));
    // A full leaf under a full branch takes two.
    assert_eq!(put_into(12, 98, 0), (done, 100));
    assert_eq!(put_into(12, 99, 0), (refused, 99));
}

#[test]
fn a_score_is_below_the_sum_of_the_switches() {
    // 3 and 2 in this tariff.
    for (score, expected) in [(0, 0), (4, 0), (5, 7), (6, 7), (u32::MAX, 7)] {
        assert_eq!(number_with_checkpoint(|page| page.scores[0].score = score), expected, "score {score}");
        let old = number_with(FIRST_CHECKPOINT_PAGE, |page| checkpoint_of(page).scores[0].score = score);
        assert_eq!(old, 0, "an old score means nothing");
    }
}

#[test]
fn a_node_switches_where_its_score_comes_to_the_sum_of_the_switches() {
    // In log mode a read adds 2 to the score and an edit takes 3, in disk mode a read takes 2 and an edit adds 3.
    let to_disk = [get(1); 3];
    let table: [(&[Command], u64, Mode, u32); 7] = [
        (&[get(1), get(1)], 3 + 3, Mode::Log, 4),
        (&[get(1), put(1, 1), get(1)], 3 + 4 + 3, Mode::Log, 3),
        (&[get(1), put(1, 1), get(1), get(1)], 3 + 4 + 3 + 3 + 1, Mode::Disk, 0),
        (&to_disk, 3 + 3 + 3 + 1, Mode::Disk, 0),
        (&[&to_disk[..], &[put(1, 1)]].concat(), 10 + 5, Mode::Disk, 3),
        (&[&to_disk[..], &[put(1, 1), put(1, 1)]].concat(), 10 + 5 + 5, Mode::Disk, 4),
        (&[&to_disk[..], &[put(1, 1), put(1, 1), delete(1)]].concat(), 10 + 5 + 5 + 1 + 2 + 1, Mode::Log, 0),
    ];
    for (row, (commands, charge, mode, score)) in table.into_iter().enumerate() {
        let mut fixture = Fixture::prepared(MIN_BLOCKS, WORKED);
        assert_eq!(fixture.batch(commands).charge(), charge, "row {row}");
        let pages = by_sequence(&fixture.pool);
        assert_eq!(mode_of_node_0(&pages), mode, "row {row}");
        let (_, mut newest) = pages[pages.len() - 1].clone();
        assert_eq!(checkpoint_of(&mut newest).scores, [Score { id: 0, score }], "row {row}");
    }
}

/// The mode of node 0, by the page that has its greatest version.
fn mode_of_node_0(pages: &[(usize, Page)]) -> Mode {
    let versions = |page: &Page| page.versions().map(|(_, version)| version).max();
    let of_node = pages.iter().max_by_key(|(_, page)| versions(page));
    match of_node.expect("a node has pages").1.content {
        Content::Node { .. } => Mode::Disk,
        _ => Mode::Log,
    }
}

#[test]
fn sequence_numbers_are_from_1_up_to_4000000000() {
    let alone = |sequence: u32| {
        number_of(pool_of(4, &[vec![node_page(sequence, 0, leaf(0..0, NO_LINK))], checkpoint(9, 1)].concat()))
    };
    assert_eq!([0, 1, 2].map(alone), [5, 0, 0]);
    let newest = |sequence: u32| number_with(CHECKPOINT_PAGE, |page| page.sequence = sequence);
    assert_eq!([3_999_999_999, 4_000_000_000, 4_000_000_001, u32::MAX].map(newest), [0, 0, 8, 8]);
    // An older page cannot have a greater number, so it is the newest, and no checkpoint page.
    assert_eq!(number_with(LOG_PAGE, |page| page.sequence = 4_000_000_001), 6);
}

#[test]
fn a_batch_goes_on_above_4000000000_and_no_other_follows() {
    let mut fixture = Fixture { pool: good().pool, answers: Vec::new() };
    mend(&mut fixture.pool, CHECKPOINT_PAGE, |page| page.sequence = 4_000_000_000);
    assert_eq!(fixture.batch(&[put(9, 9), get(9)]).number, 0);
    assert_eq!(fixture.lines(), ["800000", "81000400000009"]);
    assert_eq!(fixture.pool[page_range(4)][..7], [0x10, 0, 4, 0xEE, 0x6B, 0x28, 0x01]);
    assert_eq!(fixture.page(5).sequence, 4_000_000_002);
    assert_eq!(entries_of(&mut fixture.page(4))[0].version, VERSION);
    assert_eq!(number_of(fixture.pool), 8);
}
