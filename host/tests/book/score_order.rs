//! Scores in node order (document 02, P1): any order opens, and the next accepted batch writes them by ascending id.

use crate::common::{get, number_of, put, scan, Fixture, FREE, WORKED};
use crate::spelled::pool_of_scores;
use yokehour_host::command::Command;
use yokehour_host::layout::MAX_BLOCKS;
use yokehour_host::page::Score;
use yokehour_host::random::Random;
use yokehour_host::score_order::{newest_checkpoint, newest_scores};

/// A pool whose scores stand in this order, under the worked tariff.
fn pool_in(order: &[usize]) -> Vec<u8> {
    pool_of_scores(16, WORKED, &scores_in(order))
}

/// The score of a node in these pools: below the limit of 5, and not the same for all.
fn score_of(id: usize) -> Score {
    Score { id: id as u16, score: (id % 5) as u32 }
}

fn scores_in(order: &[usize]) -> Vec<Score> {
    order.iter().map(|&id| score_of(id)).collect()
}

/// Runs a batch on the pool, which must be accepted, and gives what it answers and charges and the scores then.
fn after(pool: Vec<u8>, commands: &[Command]) -> (Vec<String>, u64, Vec<Score>) {
    let mut fixture = Fixture { pool, answers: Vec::new() };
    let outcome = fixture.batch(commands);
    assert_eq!(outcome.number, 0);
    (fixture.lines(), outcome.charge(), newest_scores(&fixture.pool))
}

const ORDERS: [[usize; 3]; 4] = [[0, 1, 2], [2, 1, 0], [1, 2, 0], [2, 0, 1]];

#[test]
fn three_scores_open_in_any_order_and_the_empty_batch_writes_them_ascending() {
    for order in ORDERS {
        let pool = pool_in(&order);
        assert_eq!(newest_scores(&pool), scores_in(&order), "as they stand");
        assert_eq!(after(pool, &[]).2, scores_in(&[0, 1, 2]), "{order:?}");
    }
}

#[test]
fn a_batch_answers_and_charges_the_same_whatever_the_order_was() {
    let commands = [get(3), put(50, 1), get(50), scan(0, 400, 9), put(3, 7), get(104)];
    let after_in = |order: [usize; 3]| after(pool_in(&order), &commands);
    let expected = after_in([0, 1, 2]);
    assert_eq!(expected.0.len(), commands.len());
    for order in ORDERS {
        assert_eq!(after_in(order), expected, "{order:?}");
    }
}

#[test]
fn an_order_over_three_pages_opens_and_the_next_checkpoint_ascends_over_three() {
    const NODES: usize = 121;
    let ascending: Vec<usize> = (0..NODES).collect();
    let descending: Vec<usize> = ascending.iter().rev().copied().collect();
    let mut shuffled = ascending.clone();
    Random::new(9).shuffle(&mut shuffled);
    for order in [&ascending, &descending, &shuffled] {
        let pool = pool_in(order);
        assert_eq!(newest_checkpoint(&pool).len(), 3);
        assert_eq!(after(pool, &[]).2, scores_in(&ascending));
    }
}

#[test]
fn a_page_of_scores_is_filled_with_the_lowest_ids_before_the_next() {
    let mut fixture = Fixture::prepared(MAX_BLOCKS, FREE);
    let puts: Vec<Command> = (0..1_500).map(|key| put(key, 0)).collect();
    assert_eq!(fixture.batch(&puts).number, 0);
    let pages = newest_checkpoint(&fixture.pool);
    let ids: Vec<Vec<u16>> = pages.iter().map(|page| page.scores.iter().map(|score| score.id).collect()).collect();
    let nodes = pages.last().and_then(|page| page.count).expect("the last has the count");
    assert!(nodes > 104, "{nodes} nodes");
    assert_eq!(ids, [(0..50).collect::<Vec<u16>>(), (50..104).collect(), (104..nodes).collect()]);
}

#[test]
fn what_is_asked_of_the_ids_is_asked_in_any_order() {
    for ids in [[0, 1, 1], [0, 0, 2], [0, 1, 3], [1, 0, 1], [3, 1, 0], [2, 2, 0]] {
        assert_eq!(number_of(pool_in(&ids)), 6, "{ids:?}");
    }
    assert_eq!(ORDERS.map(|order| number_of(pool_in(&order))), [0; 4]);
}
