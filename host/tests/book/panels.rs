//! A charge for each panel (document 02, P2): worked cases byte for byte, limits, how long a panel stays current, and
//! batches without their panels.

use crate::common::{ceiling, charges, delete, get, panel, plain, prepared, put, scan, Fixture, NONE, PREPARED};
use yokehour_host::book::Outcome;
use yokehour_host::command::Command;
use yokehour_host::fuzz::Script;
use yokehour_host::layout::{MIN_BLOCKS, PANELS};
use yokehour_host::random::Random;

#[test]
fn the_worked_batch_shared_by_three_panels() {
    let batch = "05000103 02000800000007 00000064 0500010f 01000400000007 03000400000007 05000100 01000400000007";
    let answers = plain("800000 81000400000064 83000400000064 800000");
    let charged = charges([(3, 4), (15, 7), (0, 3)]);
    assert_eq!(prepared().batch_of_hex(batch, 28), (0, answers.clone(), charged, "cb649dfb17d509a7".into()));
    // Without its panels the same, but that panel 0 is charged for all.
    let batch = "02000800000007 00000064 01000400000007 03000400000007 01000400000007";
    assert_eq!(prepared().batch_of_hex(batch, 28), (0, answers, charges([(0, 14)]), "cb649dfb17d509a7".into()));
}

#[test]
fn a_batch_of_a_panel_alone_is_as_the_empty_one() {
    let closed = (0, String::new(), NONE, "090fe89309f52ac7".to_string());
    assert_eq!(prepared().batch_of_hex("05000107", 0), closed);
    assert_eq!(prepared().batch_of_hex("", 0), closed);
    // 32,768 bytes, and four more.
    assert_eq!(prepared().batch_of_hex(&"05000107".repeat(8_192), 0), closed);
    assert_eq!(prepared().batch_of_hex(&"05000107".repeat(8_193), 0), (3, String::new(), NONE, PREPARED.into()));
}

#[test]
fn a_panel_has_one_byte_and_is_0_to_15() {
    let refused = (3, String::new(), NONE, PREPARED.to_string());
    for batch in ["05000110", "0500020000", "050000", "050001", "0500", "05", "05010100", "01000400000007 05000110"] {
        assert_eq!(prepared().batch_of_hex(batch, 1_000), refused, "{batch}");
    }
    for panel in 0..=0xFF {
        let number = prepared().batch_of_hex(&format!("050001{panel:02x}"), 0).0;
        assert_eq!(number, if panel < 16 { 0 } else { 3 }, "panel {panel}");
    }
}

#[test]
fn a_panel_asks_for_no_answer_bytes_and_the_next_batch_begins_at_panel_0() {
    let batch = "05000102 01000400000007 05000109";
    let mut fixture = prepared();
    assert_eq!(fixture.batch_of_hex(batch, 6), (4, String::new(), NONE, PREPARED.into()));
    assert_eq!(fixture.batch_of_hex(batch, 7), (0, "800000".into(), charges([(2, 3)]), "78c00890fc67e127".into()));
    let (number, answers, charged, _) = fixture.batch_of_hex("01000400000007", 7);
    assert_eq!((number, answers.as_str(), charged), (0, "800000", charges([(0, 3)])));
}

#[test]
fn two_panels_take_turns() {
    let batch = "05000101 02000800000001 00000001 05000102 02000800000002 00000002
                 05000101 01000400000001 05000102 01000400000002 05000101 01000400000001";
    let answers = plain("800000 800000 81000400000001 81000400000002 81000400000001");
    let charged = charges([(1, 11), (2, 7)]);
    assert_eq!(prepared().batch_of_hex(batch, 35), (0, answers, charged, "116b3b544887da44".into()));
}

#[test]
fn a_put_with_9_charges_nobody() {
    let mut fixture = prepared();
    fixture.batch(&(0..240).map(|key| put(key, 0)).collect::<Vec<_>>());
    let (number, answers, charged, _) = fixture.batch_of_hex("05000105 020008000000f0 00000000", 7);
    assert_eq!((number, answers.as_str(), charged), (0, "8f000109", NONE));
}

#[test]
fn the_panel_named_last_before_a_command_is_charged_for_it() {
    let commands = [panel(4), panel(5), get(7), panel(5), panel(5), get(7), panel(9)];
    assert_eq!(prepared().batch(&commands).charges, charges([(5, 6)]));
    let commands = [get(7), panel(0), get(7)];
    assert_eq!(prepared().batch(&commands).charges, charges([(0, 6)]));
}

#[test]
fn the_panel_whose_request_moves_a_node_is_charged_for_the_switch() {
    // The third read brings the node's score to the limit.
    let commands = [panel(1), get(7), panel(2), get(7), panel(3), get(7), panel(1), get(7)];
    assert_eq!(prepared().batch(&commands).charges, charges([(1, 3 + 1), (2, 3), (3, 1 + 3)]));
}

#[test]
fn each_of_sixteen_panels_has_a_charge_of_its_own() {
    // A read costs 1 in both modes; panel p reads p + 1 times, the last panel first.
    let mut fixture = Fixture::prepared(MIN_BLOCKS, [1, 0, 0, 1, 0, 0, 1, 1]);
    let turn = |at: usize| [vec![panel(at)], vec![get(7); at + 1]].concat();
    let outcome = fixture.batch(&(0..PANELS).rev().flat_map(turn).collect::<Vec<_>>());
    assert_eq!(outcome.charges, std::array::from_fn(|at| at as u64 + 1));
    assert_eq!((outcome.length, outcome.charge()), (3 * 136, 136));
}

/// A read costs 10 and an edit 1 in both modes, so that no node ever moves.
const STEADY: [u32; 8] = [10, 1, 2, 10, 1, 2, 1_000_000, 1_000_000];

/// What commands cost on a leaf that holds 7 with 100 and 8 with 200, where moves do not blur it.
fn steady(commands: &[Command]) -> [u64; PANELS] {
    let mut fixture = Fixture::prepared(MIN_BLOCKS, STEADY);
    fixture.batch(&[put(7, 100), put(8, 200)]);
    fixture.batch(commands).charges
}

#[test]
fn a_panel_stays_current_behind_every_kind_of_command() {
    let kinds = [get(7), put(7, 1), delete(8), scan(0, 9, 4), ceiling(5)];
    // A row a first command, a column a second one. What is deleted twice is only read for the second time.
    let table =
        [[20, 21, 21, 20, 20], [21, 22, 22, 21, 21], [21, 22, 21, 21, 21], [20, 21, 21, 20, 20], [20, 21, 21, 20, 20]];
    for (first, row) in kinds.into_iter().zip(table) {
        for (second, cost) in kinds.into_iter().zip(row) {
            assert_eq!(steady(&[panel(6), first, second]), charges([(6, cost)]), "{first:?}, {second:?}");
        }
    }
}

#[test]
fn a_panel_stays_current_to_the_next_05() {
    let kinds = [get(7), put(7, 1), delete(8), scan(0, 9, 4), ceiling(5)];
    // Five kinds twenty times; the delete finds its key once.
    assert_eq!(steady(&[vec![panel(3)], kinds.repeat(20)].concat()), charges([(3, 1_021)]));
    let shared = [&[get(7), panel(11)], &kinds[..], &[panel(4)], &kinds[..], &[panel(11)], &kinds[..]].concat();
    assert_eq!(steady(&shared), charges([(0, 10), (11, 52 + 51), (4, 51)]));
    // A scan of nothing and a put that is refused cost nothing, and the panel is still the current one.
    assert_eq!(steady(&[panel(5), scan(9, 0, 1), get(7)]), charges([(5, 10)]));
    let mut fixture = Fixture::prepared(MIN_BLOCKS, STEADY);
    fixture.batch(&(0..240).map(|key| put(key, 0)).collect::<Vec<_>>());
    assert_eq!(fixture.batch(&[panel(5), put(240, 0), get(7)]).charges, charges([(5, 20)]), "root and leaf are read");
}

#[test]
fn a_panel_stays_current_while_its_commands_move_a_node() {
    // Document 01's batch is charged 14; then a scan brings the score to the limit: 3 for the move and 1 for the read.
    let moved = [panel(9), put(7, 100), get(7), delete(7), get(7), scan(0, 9, 3)];
    assert_eq!(prepared().batch(&moved).charges, charges([(9, 14 + 4)]));
    // On disk a read costs 1 and an edit 4.
    let on_disk = [&moved[..], &[ceiling(0), put(7, 1), delete(7)]].concat();
    assert_eq!(prepared().batch(&on_disk).charges, charges([(9, 14 + 4 + 1 + 5 + 5)]));
}

/// Runs commands with and without their panels on copies of a pool, which must differ in who is charged alone.
fn check_invisible(pool: &[u8], commands: &[Command]) -> (Outcome, Vec<u8>) {
    let run = |commands: &[Command]| {
        let mut fixture = Fixture { pool: pool.to_vec(), answers: Vec::new() };
        let outcome = fixture.batch(commands);
        (outcome, fixture)
    };
    let unnamed: Vec<Command> = commands.iter().copied().filter(Command::is_answered).collect();
    let ((with, fixture), (without, other)) = (run(commands), run(&unnamed));
    assert_eq!((with.number, with.length, &fixture.answers), (without.number, without.length, &other.answers));
    assert!(fixture.pool == other.pool, "the pools differ after {commands:?}");
    assert_eq!(without.charges, charges([(0, with.charge())]));
    (with, fixture.pool)
}

#[test]
fn panels_leave_no_trace_in_pool_answers_length_and_sum() {
    let pool = prepared().pool;
    check_invisible(&pool, &vec![panel(7); 100]);
    check_invisible(&pool, &[panel(1), put(1, 2), panel(2), scan(0, 9, 3), panel(2), get(1), panel(0)]);
    // Splits, and pages that are full: a panel before each put.
    let puts: Vec<Command> = (0..300).flat_map(|key| [panel(key as usize % PANELS), put(key, key)]).collect();
    check_invisible(&pool, &puts);
}

#[test]
fn panels_leave_no_trace_in_random_batches() {
    let mut random = Random::new(5);
    let mut several = 0;
    for _ in 0..60 {
        let Script { mut pool, batches } = Script::random(&mut random, 4).expect("a script");
        for commands in batches {
            let (outcome, after) = check_invisible(&pool, &commands);
            several += usize::from(outcome.panels_charged() > 1);
            pool = after;
        }
    }
    assert!(several > 60, "only {several} of 240 batches charge several panels");
}
