//! Each refusal number and their order on both books, with every buffer as document 01 leaves it.

use crate::common::{ceiling, panel, FREE, POOL_BYTES, TABLE_BYTES, WORKED};
use crate::common::{checkpoint_of, entries_of, get, good, make, mend, number, number_with, number_with_checkpoint};
use crate::common::{prepare, put, scan, Fixture, CHECKPOINT_PAGE, FIRST_CHECKPOINT_PAGE, FIRST_LOG_PAGE, LOG_PAGE};
use yokehour_host::book::Outcome;
use yokehour_host::both::Call;
use yokehour_host::command::encode;
use yokehour_host::desk::Queues;
use yokehour_host::input::Input;
use yokehour_host::layout::{page_range, BLANK, BLOCK_BYTES, BLOCK_PAGES, MIN_BLOCKS, PAGE_BYTES};
use yokehour_host::mount::mount;
use yokehour_host::node::{Change, Shape};
use yokehour_host::page::Entry;
use yokehour_host::tree::IDS_USED_UP;

/// The number that the good call comes to with another pool.
fn number_with_pool(pool: Vec<u8>) -> u8 {
    number(Call { pool, ..good() })
}

/// The number of the good call with the first log page's entry changed.
fn number_with_entry(change: fn(&mut Entry)) -> u8 {
    number_with(FIRST_LOG_PAGE, |page| change(&mut entries_of(page)[0]))
}

#[test]
fn a_good_call_is_accepted() {
    let mut call = good();
    let outcome = make(&mut call);
    assert_eq!((outcome.number, outcome.length), (0, 7));
    assert_eq!(call.answers[..7], [0x81, 0, 4, 0, 0, 0, 2]);
    assert!(call.answers[7..].iter().all(|&byte| byte == 0x67), "bytes behind the answers are left");
    assert!(call.table[..TABLE_BYTES].iter().all(|&byte| byte == 0));
    assert!(call.table[TABLE_BYTES..].iter().all(|&byte| byte == 0x78));
}

/// A question's number, and what is wrong with a good call for it; any of them go together.
type Wrong = (u8, fn(&mut Call));

/// What is wrong with either call, in the order of the questions: before its commands are read, and after.
const BEFORE: [Wrong; 2] = [(1, |call| call.pool.push(BLANK)), (2, |call| call.table.truncate(TABLE_BYTES - 1))];
const AFTER: [Wrong; 5] = [
    (4, |call| call.answers.clear()),
    (5, |call| call.pool[PAGE_BYTES - 1] = 0),
    (6, |call| mend(&mut call.pool, CHECKPOINT_PAGE, |page| checkpoint_of(page).count = Some(2))),
    (7, |call| mend(&mut call.pool, CHECKPOINT_PAGE, |page| checkpoint_of(page).scores[0].score = 5)),
    (8, |call| mend(&mut call.pool, CHECKPOINT_PAGE, |page| page.sequence = 4_000_000_001)),
];

/// Any of the wrongs together give the number of the first of them; the call without one charges three panels.
fn check_order(call: Call, wrongs: &[Wrong]) {
    for chosen in 1u32..1 << wrongs.len() {
        let mut call = call.clone();
        let chosen_wrongs = || wrongs.iter().enumerate().filter(|(at, _)| chosen >> at & 1 == 1);
        chosen_wrongs().for_each(|(_, (_, wrong))| wrong(&mut call));
        // No length, and sixteen charges of 0.
        let refused = Outcome { number: wrongs[chosen.trailing_zeros() as usize].0, ..Outcome::default() };
        assert_eq!(make(&mut call), refused, "wrong: questions {chosen:09b}, the first on the right");
    }
    assert_eq!(make(&mut call.clone()).panels_charged(), 3);
}

#[test]
fn the_first_question_that_fails_gives_the_number() {
    let commands = [get(1), panel(3), put(5, 6), panel(15), ceiling(5)];
    let invalid: Wrong = (3, |call| call.input = Input::Batch([call.input.command_bytes(), &[0x05]].concat()));
    let wrongs = [&BEFORE[..], &[invalid], &AFTER].concat();
    check_order(Call { input: Input::batch(&commands), ..good() }, &wrongs);
}

#[test]
fn a_desk_asks_11_between_2_and_3() {
    let queues = [vec![get(1)], vec![], vec![put(5, 6)], vec![ceiling(5)]];
    let part_of_a_length: Wrong = (11, |call| queues_of(call).lengths.push(0));
    // Queue 1 was empty.
    let a_panel: Wrong = (3, |call| {
        let Queues { lengths, bytes } = queues_of(call);
        lengths[7] = 4;
        bytes.splice(7..7, encode(&[panel(1)]));
    });
    let wrongs = [&BEFORE[..], &[part_of_a_length, a_panel], &AFTER].concat();
    check_order(Call { input: Input::desk(&queues), ..good() }, &wrongs);
}

/// The queues of a desk's call.
fn queues_of(call: &mut Call) -> &mut Queues {
    match &mut call.input {
        Input::Desk(queues) => queues,
        Input::Batch(_) => panic!("no desk"),
    }
}

#[test]
fn prepare_asks_1_before_10() {
    let (right, wrong) = (WORKED, [1_000_001; 8]);
    let asked = [(POOL_BYTES, right), (POOL_BYTES, wrong), (POOL_BYTES + 1, right), (POOL_BYTES + 1, wrong)];
    assert_eq!(asked.map(|(bytes, tariff)| prepare(&mut vec![0x11; bytes], tariff)), [0, 10, 1, 1]);
}

#[test]
fn number_1_the_pool_has_no_named_length() {
    for length in [0, 1, BLOCK_BYTES, POOL_BYTES - 1, POOL_BYTES + 1, POOL_BYTES + PAGE_BYTES] {
        assert_eq!(number_with_pool(vec![BLANK; length]), 1, "length {length}");
        assert_eq!(prepare(&mut vec![0x11; length], WORKED), 1, "length {length}");
    }
}

#[test]
fn number_3_the_batch_is_not_wholly_valid() {
    for batch in [
        vec![0x00, 0, 0],
        vec![0x01, 0, 4, 0, 0, 0],
        vec![0x01, 0, 5, 0, 0, 0, 0, 0],
        vec![0x07, 0, 8, 0, 0, 0, 1, 0, 0, 0, 2],
        vec![0x80, 0, 0],
        [encode(&[get(1), scan(0, 9, 1)]), vec![0x04]].concat(),
        vec![0; 40_000],
    ] {
        assert_eq!(number(Call { input: Input::Batch(batch), answers: vec![0x66; 1_000], ..good() }), 3);
    }
}

#[test]
fn number_5_a_page_does_not_check() {
    let changed = |at: usize| {
        let mut call = good();
        call.pool[at] ^= 1;
        number(call)
    };
    assert_eq!([0, PAGE_BYTES - 1, PAGE_BYTES, 700, 40_000, POOL_BYTES - 1].map(changed), [5; 6]);
    assert_eq!(number_with_pool(vec![0; POOL_BYTES]), 5);
    // Two pages with one sequence number.
    assert_eq!(number_with(FIRST_LOG_PAGE, |page| page.sequence = 3), 5);
    // A page's sequence number is an entry's version: the first page's entry has version 1.
    assert_eq!(number_with(FIRST_CHECKPOINT_PAGE, |page| page.sequence = 1), 5);
}

#[test]
fn number_5_the_blocks_break_a_rule() {
    // A page alone in the second block, which then is partly written without the newest page.
    let mut pool = good().pool;
    pool.copy_within(page_range(FIRST_LOG_PAGE), BLOCK_BYTES);
    mend(&mut pool, BLOCK_PAGES, |page| page.sequence = 2);
    assert_eq!(number_with_pool(pool), 5, "a sequence number twice");
    let mut pool = good().pool;
    pool.copy_within(page_range(FIRST_LOG_PAGE), BLOCK_BYTES);
    pool[page_range(FIRST_LOG_PAGE)].fill(BLANK);
    assert_eq!(number_with_pool(pool), 5, "a written page behind a blank one");
}

#[test]
fn number_6_no_whole_checkpoint() {
    assert_eq!(number_with_pool(vec![BLANK; POOL_BYTES]), 6, "a blank pool");
    assert_eq!(number_with(LOG_PAGE, |page| page.sequence = 100), 6, "the newest page is a log page");
    assert_eq!(number_with_checkpoint(|page| page.scores[0].id = 1), 6, "an id at the count");
    assert_eq!(number_with_checkpoint(|page| page.count = Some(2)), 6, "an id without a score");
    assert_eq!(number_with_checkpoint(|page| page.count = Some(0)), 6, "count 0");
    assert_eq!(number_with_checkpoint(|page| page.scores.push(page.scores[0])), 6, "an id twice");
}

#[test]
fn number_7_the_tree_is_not_sound() {
    let leaf_link = |entry: &mut Entry| entry.change = Change::Link(Shape::Leaf, 0);
    let branch_link = |entry: &mut Entry| entry.change = Change::Link(Shape::Branch, 0);
    assert_eq!(number_with_entry(leaf_link), 7, "the last leaf has a link");
    assert_eq!(number_with_entry(branch_link), 7, "the root leads to itself");
    assert_eq!(number_with_entry(|entry| entry.change = Change::Delete { key: 0 }), 7, "no link is set");
    assert_eq!(number_with_entry(|entry| entry.id = 1), 7, "no link again");
}

#[test]
fn number_9_is_an_answer_and_changes_nothing() {
    let mut fixture = Fixture::prepared(MIN_BLOCKS, FREE);
    for key in 0..240 {
        fixture.batch(&[put(key, 0)]);
    }
    let spelled = |fixture: &Fixture| {
        let mounted = mount(&fixture.pool).expect("opens");
        (mounted.nodes, mounted.rows.iter().map(|row| row.account).collect::<Vec<_>>())
    };
    let before = spelled(&fixture);
    let outcome = fixture.batch(&[put(240, 0)]);
    assert_eq!((outcome.number, outcome.charge()), (0, 0));
    assert_eq!(fixture.lines(), [format!("8f0001{IDS_USED_UP:02x}")]);
    assert_eq!(spelled(&fixture), before);
}
