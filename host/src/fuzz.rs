//! Random cases against everything that document 01 promises of a call.
//!
//! A case is a pool and some calls on it, batches and desks, all from one seed. After every call: the answers are
//! those of an ordered map and of the reference model, the pool opens again and spells the same, each panel's charge,
//! modes and scores are the reference model's, no state passed has a node on more than three log pages, charges are
//! within three times the optimum, a desk has left what the batch of its joined bytes leaves, and a refused call has
//! changed nothing. Where this build has the proved book, every call is made on it too, and number, length, charges and
//! all bytes must be the same.

mod call;
mod charges;
mod checked_pool;
mod commands;
mod queues;
mod script;
mod style;
mod tally;

pub use script::Script;
pub use tally::Tally;

use crate::damage;
use crate::foreign::{flaw::FLAWS, Build, PoolStyle};
use crate::layout::{MAX_BLOCKS, MIN_BLOCKS};
use crate::mount::mount;
use crate::random::Random;
use crate::refusal::Refusal;
use call::{empty_call, refused};
use checked_pool::CheckedPool;
use style::CommandStyle;

/// Runs one case; the seed replays it.
pub fn case(seed: u64, tally: &mut Tally) -> Result<(), String> {
    let mut random = Random::new(seed);
    tally.cases += 1;
    match random.below(10) {
        0..=3 => prepared_case(&mut random, tally),
        4..=6 => foreign_case(&mut random, tally),
        7..=8 => flawed_case(&mut random, tally),
        _ => damaged_case(&mut random, tally),
    }
}

/// Few blocks mostly, so that pools are full soon.
fn random_blocks(random: &mut Random) -> usize {
    match random.below(10) {
        0..=5 => random.between(MIN_BLOCKS, 6),
        6..=8 => random.between(7, 16),
        _ => random.between(17, MAX_BLOCKS),
    }
}

/// Calls on a prepared pool.
fn prepared_case(random: &mut Random, tally: &mut Tally) -> Result<(), String> {
    let mut checked = CheckedPool::prepared(random, tally)?;
    let style = checked.random_style(random);
    let rounds = if checked.blocks() > 16 { 6 } else { random.pick(&[3, 12, 30]) };
    if random.once_in(3) {
        checked.fill(random, tally, &style)?;
    }
    for _ in 0..rounds {
        checked.any_call(random, tally, &style)?;
    }
    Ok(())
}

/// Calls on a foreign pool.
fn foreign_case(random: &mut Random, tally: &mut Tally) -> Result<(), String> {
    let mut checked = CheckedPool::foreign(random, tally);
    let style = checked.random_style(random);
    for _ in 0..random.pick(&[1, 4, 10]) {
        checked.any_call(random, tally, &style)?;
    }
    Ok(())
}

/// A foreign pool with one flaw.
fn flawed_case(random: &mut Random, tally: &mut Tally) -> Result<(), String> {
    for _ in 0..20 {
        let style = PoolStyle { blocks: random_blocks(random), build: Build::Any };
        let flaw = &FLAWS[random.below(FLAWS.len())];
        if let Some(pool) = flaw.make(random, style) {
            *tally.flaws.entry(flaw.name).or_default() += 1;
            let call = empty_call(random, pool);
            refused(call, flaw.number, tally).map_err(|why| format!("{}: {why}", flaw.name))?;
        }
    }
    Ok(())
}

/// Damage to pools that open; what opens all the same is a foreign pool like any other.
fn damaged_case(random: &mut Random, tally: &mut Tally) -> Result<(), String> {
    let prepared = random.once_in(2);
    let mut checked =
        if prepared { CheckedPool::prepared(random, tally)? } else { CheckedPool::foreign(random, tally) };
    let style = checked.random_style(random);
    checked.any_call(random, tally, &style)?;
    for _ in 0..6 {
        damage_once(random, tally, checked.pool().to_vec(), &style)?;
    }
    Ok(())
}

fn damage_once(random: &mut Random, tally: &mut Tally, mut pool: Vec<u8>, style: &CommandStyle) -> Result<(), String> {
    match random.below(4) {
        0 => {
            damage::change_byte(random, &mut pool);
            tally.plain_damage += 1;
            refused(empty_call(random, pool), Refusal::Pages.number(), tally)?;
        }
        1 => {
            damage::move_pages(random, &mut pool);
            tally.moved_pages += 1;
            after_damage(random, tally, pool, style)?;
        }
        _ => {
            damage::change_mended(random, &mut pool);
            tally.mended_damage += 1;
            tally.mended_that_opened += u64::from(after_damage(random, tally, pool, style)?);
        }
    }
    Ok(())
}

/// A damaged pool is refused and left alone, or it opens and all promises hold of it. Says whether it opened.
fn after_damage(random: &mut Random, tally: &mut Tally, pool: Vec<u8>, style: &CommandStyle) -> Result<bool, String> {
    match mount(&pool) {
        Err(fault) => {
            refused(empty_call(random, pool), fault.refusal.number(), tally)?;
            Ok(false)
        }
        Ok(mounted) => {
            CheckedPool::opened(pool, mounted).any_call(random, tally, style)?;
            Ok(true)
        }
    }
}
