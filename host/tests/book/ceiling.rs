//! The next key up (document 02, P3): worked cases byte for byte, limits, what a ceiling reads, and random pools.

use std::collections::{BTreeMap, BTreeSet};

use crate::common::{ceiling, charges, delete, panel, plain, prepared, put, scan, Fixture, NONE, PREPARED, WORKED};
use yokehour_host::command::{parse_answers, Answer, Command};
use yokehour_host::fuzz::Script;
use yokehour_host::layout::{MIN_BLOCKS, PANELS};
use yokehour_host::mount::{mount, Mounted};
use yokehour_host::node::Pair;
use yokehour_host::random::Random;
use yokehour_host::tree;

/// Runs commands that must be accepted, and gives the answers as lines of hexadecimal.
fn answered(fixture: &mut Fixture, commands: &[Command]) -> Vec<String> {
    assert_eq!(fixture.batch(commands).number, 0);
    fixture.lines()
}

/// Three leaves: keys 0 to 11 in node 1, none in node 2, 24 to 36 in node 3. Keys 12 to 23 have been there.
fn with_an_empty_leaf(tariff: [u32; 8]) -> Fixture {
    let mut fixture = Fixture::prepared(MIN_BLOCKS, tariff);
    fixture.batch(&(0..37).map(|key| put(key, 100 + key)).collect::<Vec<_>>());
    fixture.batch(&(12..24).map(delete).collect::<Vec<_>>());
    fixture
}

#[test]
fn the_key_itself_or_the_nearest_above() {
    let batch = "02000800000007 00000064 02000800000009 000000c8
                 07000400000000 07000400000007 07000400000008 0700040000000a";
    let answers =
        plain("800000 800000 870008 00000007 00000064 870008 00000007 00000064 870008 00000009 000000c8 800000");
    let expected = (0, answers, charges([(0, 19)]), "dfffc665880de235".into());
    assert_eq!(prepared().batch_of_hex(batch, 7 + 7 + 4 * 11), expected);
}

#[test]
fn the_greatest_key_can_be_asked_for_and_found() {
    let batch = "020008ffffffff 00000001 070004ffffffff 07000400000008 07000400000000";
    let answers = plain(&["800000", &"870008 ffffffff 00000001".repeat(3)].concat());
    let expected = (0, answers, charges([(0, 14)]), "c1559a58d0a72f11".into());
    assert_eq!(prepared().batch_of_hex(batch, 7 + 3 * 11), expected);
    let mut fixture = prepared();
    let just_below = [put(u32::MAX - 1, 1), ceiling(u32::MAX), ceiling(u32::MAX - 1)];
    assert_eq!(answered(&mut fixture, &just_below), ["800000", "800000", "870008fffffffe00000001"]);
}

#[test]
fn a_ceiling_goes_on_through_a_leaf_without_a_key() {
    let mut fixture = with_an_empty_leaf(WORKED);
    let batch = "0700040000000b 0700040000000c 07000400000025";
    let answers = plain("870008 0000000b 0000006f 870008 00000018 0000007c 800000");
    let expected = (0, answers, charges([(0, 15)]), "4c1cc7e0f681b613".into());
    assert_eq!(fixture.batch_of_hex(batch, 33), expected);
}

#[test]
fn a_ceiling_asks_for_11_bytes_whatever_is_answered() {
    let batch = "07000400000000";
    let refused = (4, String::new(), NONE, PREPARED.to_string());
    for room in [0, 3, 7, 10] {
        assert_eq!(prepared().batch_of_hex(batch, room), refused, "{room} bytes");
    }
    let none = (0, "800000".to_string(), charges([(0, 3)]), "78c00890fc67e127".to_string());
    assert_eq!(prepared().batch_of_hex(batch, 11), none);
    // What one get leaves is the same.
    assert_eq!(prepared().batch_of_hex("01000400000000", 7), none);
    let mut fixture = prepared();
    fixture.batch(&[put(7, 100)]);
    assert_eq!(fixture.batch_of_hex(batch, 10).0, 4);
    assert_eq!(fixture.batch_of_hex(batch, 11).1, "8700080000000700000064");
}

#[test]
fn a_ceiling_has_four_bytes() {
    let refused = (3, String::new(), NONE, PREPARED.to_string());
    for batch in [
        "0700050000000000",
        "070003000000",
        "06000400000000",
        "080000",
        "07010400000000",
        "070004000000",
        "070004",
        "0700",
        "07",
        "87000400000000",
        "01000400000007 07000300",
    ] {
        assert_eq!(prepared().batch_of_hex(batch, 1_000), refused, "{batch}");
    }
    for length in 0..=12 {
        let batch = format!("0700{length:02x}{}", "00".repeat(length));
        let expected = if length == 4 { 0 } else { 3 };
        assert_eq!(prepared().batch_of_hex(&batch, 1_000).0, expected, "{length} bytes");
    }
}

#[test]
fn a_batch_holds_4681_ceilings() {
    let ceilings = "07000400000000".repeat(4_681);
    assert_eq!(prepared().batch_of_hex(&ceilings, 51_490).0, 4);
    let (number, answers, ..) = prepared().batch_of_hex(&ceilings, 51_491);
    assert_eq!((number, answers), (0, "800000".repeat(4_681)));
    assert_eq!(prepared().batch_of_hex(&[&ceilings, "07000400000000"].concat(), 60_000).0, 3);
}

#[test]
fn a_ceiling_is_answered_with_87_and_a_scan_for_one_pair_with_84() {
    let mut fixture = prepared();
    fixture.batch(&[put(7, 100)]);
    let both = [ceiling(3), scan(3, u32::MAX, 1), ceiling(8), scan(8, u32::MAX, 1)];
    let expected = ["8700080000000700000064", "8400080000000700000064", "800000", "840000"];
    assert_eq!(answered(&mut fixture, &both), expected);
}

#[test]
fn a_ceiling_sees_what_the_commands_before_it_did() {
    let commands =
        [ceiling(0), put(5, 1), ceiling(0), put(3, 2), ceiling(0), delete(3), ceiling(0), delete(5), ceiling(0)];
    let (three, five) = ("8700080000000300000002", "8700080000000500000001");
    let expected = ["800000", "800000", five, "800000", three, "83000400000002", five, "83000400000001", "800000"];
    assert_eq!(answered(&mut prepared(), &commands), expected);
}

#[test]
fn the_current_panel_is_charged_for_a_ceiling() {
    let commands = [panel(3), ceiling(7), panel(15), ceiling(7), panel(3), ceiling(7), panel(0), ceiling(7)];
    // The third read moves the leaf to disk, where one costs 1.
    assert_eq!(prepared().batch(&commands).charges, charges([(3, 3 + 1 + 3), (15, 3), (0, 1)]));
}

/// A read costs 1 in log mode, nothing else costs anything and no node moves: so a score counts the node's reads.
const COUNTING: [u32; 8] = [1, 0, 0, 0, 0, 0, 1_000_000, 1_000_000];

/// How often a command reads each node, by id.
fn reads(fixture: &mut Fixture, command: Command) -> Vec<u32> {
    let before = scores(fixture);
    let outcome = fixture.batch(&[command]);
    let reads: Vec<u32> = scores(fixture).iter().zip(before).map(|(after, before)| after - before).collect();
    assert_eq!(outcome.charge(), reads.iter().map(|&read| u64::from(read)).sum());
    reads
}

fn scores(fixture: &Fixture) -> Vec<u32> {
    mount(&fixture.pool).expect("opens").rows.iter().map(|row| row.account.score).collect()
}

#[test]
fn a_ceiling_reads_down_to_its_leaf_and_on_to_the_first_with_a_key() {
    let mut fixture = with_an_empty_leaf(COUNTING);
    let table = [
        (0, [1, 1, 0, 0]),
        (11, [1, 1, 0, 0]),
        (12, [1, 0, 1, 1]),
        (23, [1, 0, 1, 1]),
        (24, [1, 0, 0, 1]),
        (36, [1, 0, 0, 1]),
        (37, [1, 0, 0, 1]),
        (u32::MAX, [1, 0, 0, 1]),
    ];
    for (key, expected) in table {
        assert_eq!(reads(&mut fixture, ceiling(key)), expected, "{key}");
    }
    // Without its last key the first leaf leads on, through the empty one.
    fixture.batch(&[delete(11)]);
    assert_eq!(reads(&mut fixture, ceiling(11)), [1, 1, 1, 1]);
    assert_eq!(fixture.lines(), ["870008000000180000007c"]);
    assert_eq!(reads(&mut fixture, ceiling(10)), [1, 1, 0, 0]);
    assert_eq!(fixture.lines(), ["8700080000000a0000006e"]);
}

#[test]
fn a_ceiling_in_a_tree_without_a_key_reads_on_to_the_last_leaf() {
    let mut fixture = with_an_empty_leaf(COUNTING);
    fixture.batch(&(0..37).map(delete).collect::<Vec<_>>());
    for (key, expected) in [(0, [1, 1, 1, 1]), (12, [1, 0, 1, 1]), (24, [1, 0, 0, 1]), (u32::MAX, [1, 0, 0, 1])] {
        assert_eq!(reads(&mut fixture, ceiling(key)), expected, "{key}");
        assert_eq!(fixture.lines(), ["800000"]);
    }
    let mut fixture = Fixture::prepared(MIN_BLOCKS, COUNTING);
    assert_eq!(reads(&mut fixture, ceiling(0)), [1]);
}

/// The keys of a map, those beside them, and the first and the last that there can be.
fn keys_around(map: &BTreeMap<u32, u32>) -> Vec<u32> {
    let beside = map.keys().flat_map(|&key| [key.saturating_sub(1), key, key.saturating_add(1)]);
    beside.chain([0, u32::MAX]).collect::<BTreeSet<u32>>().into_iter().collect()
}

/// A command for each key, each said by the next panel.
fn by_panels(keys: &[u32], command: fn(u32) -> Command) -> Vec<Command> {
    (0..PANELS).cycle().zip(keys).flat_map(|(at, &key)| [panel(at), command(key)]).collect()
}

/// Asks for the ceiling of each key on a pool: the answer is the map's, all else is as with scans for one pair.
fn check_ceilings(pool: &[u8], map: &BTreeMap<u32, u32>, keys: &[u32]) {
    let run = |command: fn(u32) -> Command| {
        let mut fixture = Fixture { pool: pool.to_vec(), answers: Vec::new() };
        let outcome = fixture.batch(&by_panels(keys, command));
        assert_eq!(outcome.number, 0);
        (parse_answers(&fixture.answers).expect("answers"), outcome.charges, fixture.pool)
    };
    let (found, charges, after) = run(ceiling);
    let (scanned, charges_of_scans, after_scans) = run(|key| scan(key, u32::MAX, 1));
    for ((&key, found), scanned) in keys.iter().zip(found).zip(scanned) {
        let expected = map.range(key..).next().map(|(&key, &pointer)| Pair { key, pointer });
        assert_eq!(found, expected.map_or(Answer::Absent, Answer::Ceiling), "{key}");
        assert_eq!(scanned, Answer::Pairs(expected.into_iter().collect()), "{key}");
    }
    assert_eq!(charges, charges_of_scans);
    assert!(after == after_scans, "ceilings and scans for one pair leave other pools");
}

fn has_an_empty_leaf(mounted: &Mounted) -> bool {
    mounted.nodes.len() > 1 && mounted.nodes.iter().any(|node| node.is_leaf() && node.pairs.is_empty())
}

#[test]
fn ceilings_on_random_pools_are_the_map_s_and_cost_what_scans_for_one_pair_do() {
    let mut random = Random::new(7);
    let mut with_empty_leaves = 0;
    for _ in 0..120 {
        let Script { pool, batches } = Script::random(&mut random, 3).expect("a script");
        let mut fixture = Fixture { pool, answers: Vec::new() };
        for commands in batches {
            fixture.batch(&commands);
        }
        // The batches may have used up the sequence numbers.
        let Ok(mounted) = mount(&fixture.pool) else { continue };
        with_empty_leaves += usize::from(has_an_empty_leaf(&mounted));
        let map = tree::pairs(&mounted.nodes).into_iter().map(|pair| (pair.key, pair.pointer)).collect();
        keys_around(&map).chunks(1_900).for_each(|keys| check_ceilings(&fixture.pool, &map, keys));
    }
    assert!(with_empty_leaves >= 30, "only {with_empty_leaves} pools have an empty leaf");
}
