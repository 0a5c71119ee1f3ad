//! The trait of a book, and the second book: prepare, batch and desk, as the papers have them.

use crate::account::Tariff;
use crate::command::{self, Command};
use crate::desk;
use crate::flash::Store;
use crate::layout::{block_count, node_limit, PANELS, TABLE_BYTES_PER_BLOCK};
use crate::mount::mount;
use crate::node::Node;
use crate::observe::{Observer, Unobserved};
use crate::refusal::Refusal;
use crate::tree;

/// What batch and desk return.
#[derive(Clone, Copy, PartialEq, Eq, Debug, Default)]
pub struct Outcome {
    /// 0, or the number of the refusal.
    pub number: u8,
    /// Bytes of the answers.
    pub length: usize,
    /// What each panel's own commands cost.
    pub charges: [u64; PANELS],
}

impl Outcome {
    /// What the whole batch cost: the charge of document 01.
    pub fn charge(&self) -> u64 {
        self.charges.iter().sum()
    }

    /// How many panels it cost anything.
    pub fn panels_charged(&self) -> usize {
        self.charges.iter().filter(|&&charge| charge > 0).count()
    }
}

/// A book: the three entry points over the caller's buffers, which may be called from any thread.
pub trait Book: Send {
    /// Makes the pool an empty book, and returns 0 or the number of the refusal.
    fn prepare(&mut self, pool: &mut [u8], tariff: [u32; 8]) -> u8;

    /// Runs a batch on the pool and answers it.
    fn batch(&mut self, pool: &mut [u8], table: &mut [u8], batch: &[u8], answers: &mut [u8]) -> Outcome;

    /// Serves queues, a command of each in turn, and answers in the order of service.
    ///
    /// The lengths of the queues have four bytes each; queue p is panel p's.
    fn desk(&mut self, pool: &mut [u8], table: &mut [u8], lengths: &[u8], queues: &[u8], answers: &mut [u8])
        -> Outcome;
}

/// The book of this package.
pub struct SecondBook;

impl Book for SecondBook {
    fn prepare(&mut self, pool: &mut [u8], tariff: [u32; 8]) -> u8 {
        prepare(pool, tariff, &mut Unobserved)
    }

    fn batch(&mut self, pool: &mut [u8], table: &mut [u8], batch: &[u8], answers: &mut [u8]) -> Outcome {
        self::batch(pool, table, batch, answers, &mut Unobserved)
    }

    fn desk(
        &mut self,
        pool: &mut [u8],
        table: &mut [u8],
        lengths: &[u8],
        queues: &[u8],
        answers: &mut [u8],
    ) -> Outcome {
        self::desk(pool, table, lengths, queues, answers, &mut Unobserved)
    }
}

/// Prepares a pool: node 0 as an empty leaf, and a checkpoint.
pub fn prepare(pool: &mut [u8], tariff: [u32; 8], observer: &mut dyn Observer) -> u8 {
    let Some(blocks) = block_count(pool.len()) else {
        return Refusal::PoolLength.number();
    };
    let Some(tariff) = Tariff::from_numbers(tariff) else {
        return Refusal::Tariff.number();
    };
    let mut store = Store::erased(pool, blocks, tariff, observer);
    store.create(Node::empty_leaf());
    store.close();
    0
}

/// Runs a batch, telling the observer of every state passed.
pub fn batch(
    pool: &mut [u8],
    table: &mut [u8],
    batch: &[u8],
    answers: &mut [u8],
    observer: &mut dyn Observer,
) -> Outcome {
    run(pool, table, || parsed(batch), answers, observer)
}

/// Serves queues: joins them, and runs what comes of it as a batch.
pub fn desk(
    pool: &mut [u8],
    table: &mut [u8],
    lengths: &[u8],
    queues: &[u8],
    answers: &mut [u8],
    observer: &mut dyn Observer,
) -> Outcome {
    run(pool, table, || parsed(&desk::join(lengths, queues)?), answers, observer)
}

/// The commands of a batch (question 3).
fn parsed(batch: &[u8]) -> Result<Vec<Command>, Refusal> {
    command::parse(batch).ok_or(Refusal::Batch)
}

/// Runs commands that are read only once pool and table have their lengths.
fn run(
    pool: &mut [u8],
    table: &mut [u8],
    read: impl FnOnce() -> Result<Vec<Command>, Refusal>,
    answers: &mut [u8],
    observer: &mut dyn Observer,
) -> Outcome {
    match asked(pool, table, read, answers, observer) {
        Ok((length, charges)) => Outcome { number: 0, length, charges },
        Err(refusal) => Outcome { number: refusal.number(), ..Outcome::default() },
    }
}

/// Asks the questions in their order, does the commands and closes.
fn asked(
    pool: &mut [u8],
    table: &mut [u8],
    read: impl FnOnce() -> Result<Vec<Command>, Refusal>,
    answers: &mut [u8],
    observer: &mut dyn Observer,
) -> Result<(usize, [u64; PANELS]), Refusal> {
    let blocks = block_count(pool.len()).ok_or(Refusal::PoolLength)?;
    let table = table.get_mut(..TABLE_BYTES_PER_BLOCK * blocks).ok_or(Refusal::TableLength)?;
    // This book keeps its rows in memory of its own; all that is seen of the table is that it ends zero.
    table.fill(0);
    let commands = read()?;
    if answers.len() < command::answer_room(&commands) {
        return Err(Refusal::AnswerRoom);
    }
    let mounted = mount(pool).map_err(|fault| fault.refusal)?;

    let mut store = Store::open(pool, mounted, observer);
    let mut answer_bytes = Vec::new();
    let charges = serve(&mut store, node_limit(blocks), &commands, &mut answer_bytes);
    store.close();
    answers[..answer_bytes.len()].copy_from_slice(&answer_bytes);
    Ok((answer_bytes.len(), charges))
}

/// Does commands on an open store, puts their answers behind `answers` and gives each panel's charge.
pub fn serve(store: &mut Store<'_>, limit: usize, commands: &[Command], answers: &mut Vec<u8>) -> [u64; PANELS] {
    let mut charges = [0; PANELS];
    let mut current = 0;
    let mut steps = Vec::new();
    for command in commands {
        if let Command::Panel { panel } = *command {
            current = panel;
        }
        let answer = tree::plan(store.nodes(), limit, command, &mut steps);
        charges[current] += steps.drain(..).map(|step| store.run(step)).sum::<u64>();
        if let Some(answer) = answer {
            answer.encode(answers);
        }
    }
    charges
}
