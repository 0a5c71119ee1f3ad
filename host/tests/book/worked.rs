//! Document 01's worked cases, and what a pool of 65,536 bytes holds.

use crate::common::{delete, get, put, scan, Fixture, WORKED};
use yokehour_host::account::Mode;
use yokehour_host::mount::mount;

#[test]
fn the_program_wall() {
    let mut fixture = Fixture::prepared(4, WORKED);
    let outcome = fixture.batch(&[put(7, 100), get(7), delete(7), get(7)]);
    assert_eq!(fixture.lines(), ["800000", "81000400000064", "83000400000064", "800000"]);
    assert_eq!(outcome.charge(), 14);
}

#[test]
fn reads_of_a_log_node_move_it_to_disk() {
    let mut fixture = Fixture::prepared(4, WORKED);
    assert_eq!([3, 3, 4].map(|_| fixture.batch(&[get(1)]).charge()), [3, 3, 4]);
    let row = &mount(&fixture.pool).expect("opens").rows[0];
    assert_eq!((row.account.mode, row.account.score), (Mode::Disk, 0));
}

#[test]
fn a_scan_from_9_to_3() {
    let mut fixture = Fixture::prepared(4, WORKED);
    let outcome = fixture.batch(&[scan(9, 3, 32)]);
    assert_eq!((fixture.lines(), outcome.charge()), (vec!["840000".to_string()], 0));
}

#[test]
fn an_empty_batch_closes_all_the_same() {
    let mut fixture = Fixture::prepared(4, WORKED);
    let before = fixture.hash();
    let outcome = fixture.batch(&[]);
    assert_eq!((outcome.number, outcome.length, outcome.charge()), (0, 0, 0));
    assert_ne!(fixture.hash(), before);
    assert_eq!(mount(&fixture.pool).expect("opens").last_sequence, 4);
}

#[test]
fn a_put_of_the_same_value_is_an_edit() {
    let mut fixture = Fixture::prepared(4, WORKED);
    assert_eq!(fixture.batch(&[put(1, 2)]).charge(), 4);
    // The reads have brought the score to 2, an edit takes it back to 0.
    assert_eq!(fixture.batch(&[put(1, 2)]).charge(), 4);
    assert_eq!(fixture.lines(), ["82000400000002"]);
}

#[test]
fn twenty_four_keys_do_not_split_and_25_do() {
    let mut fixture = Fixture::prepared(4, WORKED);
    let puts: Vec<_> = (0..24).map(|key| put(key, key)).collect();
    fixture.batch(&puts);
    assert_eq!(mount(&fixture.pool).expect("opens").nodes.len(), 1);
    fixture.batch(&[put(24, 24)]);
    let nodes = mount(&fixture.pool).expect("opens").nodes;
    let keys: Vec<usize> = nodes.iter().map(|node| node.pairs.len()).collect();
    assert_eq!(keys, [1, 12, 13]);
}

/// Puts ascending keys, one a batch, until one is refused; gives how many were taken.
fn fill(fixture: &mut Fixture) -> u32 {
    (0..)
        .find(|&key| {
            assert_eq!(fixture.batch(&[put(key, !key)]).number, 0);
            fixture.lines() == ["8f000109"]
        })
        .expect("a pool is full at last")
}

#[test]
fn ascending_keys_fill_a_small_pool_to_the_limit() {
    let mut fixture = Fixture::prepared(4, WORKED);
    // 20 nodes: the root and 19 leaves in the end, 18 of them with 12 keys, the last with 24.
    assert_eq!(fill(&mut fixture), 18 * 12 + 24);
    let mounted = mount(&fixture.pool).expect("opens");
    assert_eq!(mounted.nodes.len(), 20);

    // A refused put changes nothing and is free; the batch goes on.
    let before = mounted.rows.iter().map(|row| row.account).collect::<Vec<_>>();
    let outcome = fixture.batch(&[put(240, 1), get(240)]);
    assert_eq!(fixture.lines(), ["8f000109", "800000"]);
    assert!(outcome.charge() > 0, "the get is charged");
    let outcome = fixture.batch(&[put(1000, 1)]);
    assert_eq!((fixture.lines(), outcome.charge()), (vec!["8f000109".to_string()], 0));
    let after = mount(&fixture.pool).expect("opens").rows.iter().map(|row| row.account).collect::<Vec<_>>();
    assert_eq!(before.len(), after.len());
}

#[test]
fn the_fullest_small_pool_has_456_keys() {
    let mut fixture = Fixture::prepared(4, WORKED);
    // Keys far apart first, so that the leaves of 12 can be filled up afterwards.
    let mut keys: Vec<u32> = (0..240).map(|i| i * 1000).collect();
    for key in &keys {
        assert_eq!(fixture.batch(&[put(*key, 1)]).number, 0);
        assert_eq!(fixture.lines(), ["800000"]);
    }
    // 18 leaves of 12 keys take 12 more each.
    for leaf in 0..18u32 {
        for more in 1..=12 {
            let key = leaf * 12_000 + more;
            fixture.batch(&[put(key, 1)]);
            assert_eq!(fixture.lines(), ["800000"], "key {key}");
            keys.push(key);
        }
    }
    assert_eq!(keys.len(), 456);
    let mounted = mount(&fixture.pool).expect("opens");
    assert_eq!(mounted.nodes.iter().filter(|node| node.is_leaf()).map(|leaf| leaf.pairs.len()).sum::<usize>(), 456);

    for key in [13, 77_777, 239_001, u32::MAX] {
        fixture.batch(&[put(key, 1)]);
        assert_eq!(fixture.lines(), ["8f000109"], "key {key}");
    }
    // A key that is there can still be put.
    fixture.batch(&[put(0, 9), put(12, 9)]);
    assert_eq!(fixture.lines(), ["82000400000001", "82000400000001"]);
}

#[test]
fn a_three_level_tree_reaches_its_limit() {
    let mut fixture = Fixture::prepared(8, WORKED);
    // 60 nodes: the root, four branches below it, 55 leaves, 54 of them with 12 keys, the last with 24.
    assert_eq!(fill(&mut fixture), 54 * 12 + 24);
    let mounted = mount(&fixture.pool).expect("opens");
    assert_eq!(mounted.nodes.len(), 60);
    assert_eq!(mounted.nodes.iter().filter(|node| !node.is_leaf()).count(), 5);
}
