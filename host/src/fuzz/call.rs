//! Random calls, and calls that must be refused.

use super::queues::{batch_or_desk, wrong_lengths, wrong_queues};
use super::Tally;
use crate::both::{self, Call};
use crate::command::{answer_room, encode, parse, Command};
use crate::input::Input;
use crate::layout::{
    table_bytes, BLANK, BLOCK_BYTES, MAX_BATCH_BYTES, MAX_BLOCKS, MAX_SCAN_PAIRS, MAX_TARIFF, MIN_BLOCKS, PAGE_BYTES,
    PANELS,
};
use crate::random::Random;
use crate::refusal::Refusal;
use crate::wire::{TAG_CEILING, TAG_PANEL};

/// A call with buffers that are long enough, by nothing or by some bytes, and have anything in them.
pub(super) fn random_call(random: &mut Random, pool: Vec<u8>, input: Input) -> Call {
    let room = parse(input.command_bytes()).map_or(0, |commands| answer_room(&commands));
    let beyond = random.pick(&[0, 0, 1, 500]);
    let table = random.bytes(table_bytes(pool.len()) + beyond);
    Call { pool, table, input, answers: random.bytes(room + beyond) }
}

/// A batch or a desk without a command.
pub(super) fn empty_call(random: &mut Random, pool: Vec<u8>) -> Call {
    let input = batch_or_desk(random, &[]);
    random_call(random, pool, input)
}

/// Makes a call that must be refused with this number.
pub(super) fn refused(mut call: Call, number: u8, tally: &mut Tally) -> Result<(), String> {
    let outcome = call.make()?;
    if outcome.number != number {
        return Err(format!("a call to be refused with {number} came to {outcome:?}"));
    }
    tally.count_refused(&call.input, number);
    Ok(())
}

/// Makes a call that one of questions 1 to 4 or 11 refuses.
pub(super) fn refused_call(random: &mut Random, pool: &[u8], tally: &mut Tally) -> Result<(), String> {
    let input = batch_or_desk(random, &[Command::Get { key: 1 }]);
    let mut call = random_call(random, pool.to_vec(), input);
    let number = random.pick(&[1, 2, 3, 4, 11]);
    match number {
        1 => call.pool.resize(wrong_pool_length(random, pool.len()), BLANK),
        2 => call.table.truncate(random.below(table_bytes(pool.len()))),
        3 if random.once_in(2) => call.input = Input::Desk(wrong_queues(random)),
        3 => call.input = Input::Batch(random_nonsense(random)),
        4 => call = short_of_room(random, call),
        _ => call.input = Input::Desk(wrong_lengths(random)),
    }
    refused(call, number, tally)
}

/// A length that no pool has.
fn wrong_pool_length(random: &mut Random, right: usize) -> usize {
    let [too_few, too_many] = [MIN_BLOCKS - 1, MAX_BLOCKS + 1].map(|blocks| blocks * BLOCK_BYTES);
    random.pick(&[0, too_few, too_many, right - 1, right + PAGE_BYTES])
}

/// The call with commands that ask for much room, for little and for none, and with a byte less than that or fewer.
fn short_of_room(random: &mut Random, call: Call) -> Call {
    let most = random.between(1, MAX_SCAN_PAIRS);
    let scan = Command::Scan { low: 5, high: random.next_u32() % 10, most };
    let ceiling = Command::Ceiling { key: random.next_u32() % 10 };
    let commands = [Command::Panel { panel: 1 }, Command::Get { key: 1 }, Command::Panel { panel: 2 }, scan, ceiling];
    let room = answer_room(&commands);
    let any = random.below(room);
    let lent = random.pick(&[room - 1, any]);
    Call { input: batch_or_desk(random, &commands), answers: random.bytes(lent), ..call }
}

/// Bytes that are no batch.
pub(super) fn random_nonsense(random: &mut Random) -> Vec<u8> {
    let mut batch = encode(&[Command::Get { key: 1 }, Command::Put { key: 2, value: 3 }]);
    match random.below(8) {
        0 => batch.truncate(random.between(1, 6)),
        1 => batch.push(1),
        2 => batch[0] = random.pick(&[0, 5, 6, 8, 0x10, 0x12, 0x1F, 0x80, 0x84, 0x87, 0xFF]),
        3 => batch[2] = random.pick(&[0, 3, 5, 10]),
        4 => batch.extend(encode(&[Command::Scan {
            low: 9,
            high: 3,
            most: random.pick(&[0, MAX_SCAN_PAIRS + 1, 0x100, 0xFFFF]),
        }])),
        5 => batch.extend(wrong_panel(random)),
        6 => batch.extend(wrong_ceiling(random)),
        _ => batch = encode(&vec![Command::Delete { key: 5 }; MAX_BATCH_BYTES / 7 + 1]),
    }
    batch
}

/// A panel above the last, of another length, or cut short.
fn wrong_panel(random: &mut Random) -> Vec<u8> {
    let above = [0, 1, random.between(PANELS, 0xFF) as u8];
    let next = [0, 1, PANELS as u8];
    let rest = random.pick(&[&above[..], &next, &[0, 0], &[0, 2, 0, 0], &[1, 1, 0], &[0, 1], &[]]);
    [&[TAG_PANEL], rest].concat()
}

/// A ceiling of another length, or cut short.
fn wrong_ceiling(random: &mut Random) -> Vec<u8> {
    let length = random.pick(&[0, 3, 5, 8, 10]);
    let other = [&[0, length][..], &vec![0; usize::from(length)]].concat();
    let rest = random.pick(&[&other[..], &[1, 4, 0, 0, 0, 0], &[0, 4, 0, 0, 0], &[0, 4], &[]]);
    [&[TAG_CEILING], rest].concat()
}

/// Makes prepares that questions 10 and 1 refuse.
pub(super) fn refused_prepares(
    random: &mut Random,
    tally: &mut Tally,
    pool: &mut [u8],
    good: [u32; 8],
) -> Result<(), String> {
    let mut bad = good;
    let at = random.below(8);
    bad[at] = if at >= 6 && random.once_in(2) { 0 } else { MAX_TARIFF + 1 + random.next_u32() % 1000 };
    refused_prepare(pool, bad, Refusal::Tariff, tally)?;
    let length = random.pick(&[0, (MIN_BLOCKS - 1) * BLOCK_BYTES, (MAX_BLOCKS + 1) * BLOCK_BYTES, 70_000]);
    refused_prepare(&mut vec![7; length], random.pick(&[good, bad]), Refusal::PoolLength, tally)
}

fn refused_prepare(pool: &mut [u8], tariff: [u32; 8], refusal: Refusal, tally: &mut Tally) -> Result<(), String> {
    let number = both::prepare(pool, tariff)?;
    if number != refusal.number() {
        return Err(format!("prepare of {} bytes with {tariff:?} came to {number}", pool.len()));
    }
    tally.calls += 1;
    tally.refusals[usize::from(number)] += 1;
    Ok(())
}
