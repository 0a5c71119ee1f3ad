//! The limits of a call's buffers and of the tariff: at each limit and one past it, on both books.

use crate::common::{
    ceiling, delete, get, good, make, number, number_of, number_with, number_with_checkpoint, panel, prepare, put, scan,
};
use crate::common::{checkpoint_of, Fixture, FIRST_CHECKPOINT_PAGE, FREE, POOL_BYTES, WORKED};
use yokehour_host::both::Call;
use yokehour_host::command::{encode, Command};
use yokehour_host::layout::{BLANK, BLOCK_BYTES, MAX_BLOCKS, MIN_BLOCKS};

#[test]
fn a_pool_has_4_to_64_blocks() {
    for (blocks, expected) in [(3, 1), (4, 0), (5, 0), (63, 0), (64, 0), (65, 1)] {
        assert_eq!(prepare(&mut vec![0xA5; blocks * BLOCK_BYTES], WORKED), expected, "{blocks} blocks");
        // A good pool, but that its last block is gone or one more is there.
        let mut pool = Fixture::prepared(blocks.clamp(MIN_BLOCKS, MAX_BLOCKS), WORKED).pool;
        pool.resize(blocks * BLOCK_BYTES, BLANK);
        assert_eq!(number_of(pool), expected, "{blocks} blocks");
    }
}

#[test]
fn a_table_has_1024_bytes_for_each_block() {
    for blocks in [4, 5, 64] {
        let pool = Fixture::prepared(blocks, WORKED).pool;
        let lent = |bytes: usize| number(Call { table: vec![0x77; bytes], ..Call::new(pool.clone(), &[put(1, 1)]) });
        assert_eq!([0, 1_024 * blocks - 1, 1_024 * blocks].map(lent), [2, 2, 0], "{blocks} blocks");
    }
}

#[test]
fn the_table_is_zero_after_an_accepted_batch_that_used_it() {
    let pool = Fixture::prepared(MAX_BLOCKS, WORKED).pool;
    let puts: Vec<Command> = (0..2_500).map(|key| put(key, key)).collect();
    let mut call = Call::new(pool, &puts);
    call.table = vec![0x77; 1_024 * MAX_BLOCKS + 1];
    assert_eq!(make(&mut call).number, 0);
    assert!(call.table[..1_024 * MAX_BLOCKS].iter().all(|&byte| byte == 0));
    assert_eq!(call.table[1_024 * MAX_BLOCKS], 0x77, "and the byte behind it is left");
}

/// So many puts, which have 11 bytes, and as many gets, which have 7, as make so many bytes of them.
fn batch_of(bytes: usize, puts: usize) -> Vec<Command> {
    let gets = (bytes - 11 * puts) / 7;
    let commands = [vec![put(1, 2); puts], vec![get(1); gets]].concat();
    assert_eq!(encode(&commands).len(), bytes);
    commands
}

#[test]
fn a_batch_has_up_to_32768_bytes() {
    let pool = Fixture::prepared(MIN_BLOCKS, FREE).pool;
    let table = [(0, 0, 0), (32_767, 0, 0), (32_768, 2, 0), (32_769, 4, 3), (32_774, 0, 3)];
    for (bytes, puts, expected) in table {
        assert_eq!(number(Call::new(pool.clone(), &batch_of(bytes, puts))), expected, "{bytes} bytes");
    }
}

#[test]
fn a_scan_is_for_1_to_32_pairs() {
    let mut fixture = Fixture::prepared(MIN_BLOCKS, FREE);
    fixture.batch(&(0..40).map(|key| put(key, key)).collect::<Vec<_>>());
    // `most` has two bytes: those of 257 are 1 and 1, those of 8,192 are 32 and 0.
    for (most, expected) in [(0, 3), (1, 0), (31, 0), (32, 0), (33, 3), (257, 3), (8_192, 3), (0xFFFF, 3)] {
        let outcome = make(&mut Call::new(fixture.pool.clone(), &[scan(0, u32::MAX, most)]));
        let length = if expected == 0 { 3 + 8 * most } else { 0 };
        assert_eq!((outcome.number, outcome.length), (expected, length), "{most} pairs");
        let backwards = number(Call::new(fixture.pool.clone(), &[get(1), scan(9, 3, most)]));
        assert_eq!(backwards, expected, "{most} pairs, low above high");
    }
}

#[test]
fn answers_have_7_bytes_for_a_command_3_and_8_a_pair_for_a_scan_11_for_a_ceiling_and_none_for_a_panel() {
    let pool = good().pool;
    let lent = |commands: &[Command], bytes: usize| {
        number(Call { answers: vec![0x66; bytes], ..Call::new(pool.clone(), commands) })
    };
    assert_eq!([lent(&[], 0), lent(&[panel(15)], 0)], [0, 0]);
    // 32,767 bytes of commands, which ask for the most that any batch does.
    let longest = [vec![scan(0, 9, 32); 2_520], vec![ceiling(1)]].concat();
    let table: [(&[Command], usize); 14] = [
        (&[get(1)], 7),
        (&[get(9)], 7),
        (&[put(1, 9)], 7),
        (&[put(9, 9)], 7),
        (&[delete(1)], 7),
        (&[delete(9)], 7),
        (&[scan(0, 9, 1)], 11),
        (&[scan(0, 9, 32)], 259),
        (&[scan(9, 0, 32)], 259),
        (&[ceiling(1)], 11),
        (&[ceiling(9)], 11),
        (&[get(1), put(9, 9), delete(1), scan(9, 0, 2), ceiling(9)], 51),
        (&[panel(15), get(1), panel(0), scan(9, 0, 2), panel(7)], 26),
        (&longest, 652_691),
    ];
    for (commands, room) in table {
        assert_eq!([room - 1, room].map(|bytes| lent(commands, bytes)), [4, 0], "room {room}");
    }
}

#[test]
fn keys_and_values_have_all_their_32_bits() {
    let mut fixture = Fixture::prepared(MIN_BLOCKS, WORKED);
    fixture.batch(&[put(u32::MAX, u32::MAX), put(0, 0), get(u32::MAX), get(0), get(u32::MAX - 1)]);
    assert_eq!(fixture.lines(), ["800000", "800000", "810004ffffffff", "81000400000000", "800000"]);
    fixture.batch(&[scan(0, u32::MAX, 32), scan(u32::MAX, u32::MAX, 1), scan(1, u32::MAX - 1, 32), scan(0, 0, 1)]);
    let (first, last) = ("0000000000000000", "ffffffffffffffff");
    let expected = [format!("840010{first}{last}"), format!("840008{last}"), "840000".into(), format!("840008{first}")];
    assert_eq!(fixture.lines(), expected);
    fixture.batch(&[ceiling(u32::MAX), ceiling(1), ceiling(0)]);
    assert_eq!(fixture.lines(), [last, last, first].map(|pair| format!("870008{pair}")));
    fixture.batch(&[delete(u32::MAX), delete(0), scan(0, u32::MAX, 32), ceiling(0)]);
    assert_eq!(fixture.lines(), ["830004ffffffff", "83000400000000", "840000", "800000"]);
}

#[test]
fn tariff_numbers_are_up_to_1000000_and_switches_from_1() {
    for at in 0..8 {
        let of_zero = if at < 6 { 0 } else { 10 };
        for (cost, expected) in [(0, of_zero), (1, 0), (1_000_000, 0), (1_000_001, 10), (u32::MAX, 10)] {
            let mut tariff = WORKED;
            tariff[at] = cost;
            assert_eq!(prepare(&mut vec![0x11; POOL_BYTES], tariff), expected, "{tariff:?}");
            let in_pool = number_with_checkpoint(|page| page.tariff = Some(tariff));
            assert_eq!(in_pool, if expected == 0 { 0 } else { 7 }, "{tariff:?}");
            let in_old_page = number_with(FIRST_CHECKPOINT_PAGE, |page| checkpoint_of(page).tariff = Some(tariff));
            assert_eq!(in_old_page, 0, "an old checkpoint's tariff means nothing");
        }
    }
}
