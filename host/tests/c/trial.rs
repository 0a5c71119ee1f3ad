//! The calls of `tools/board/trial.c` once more, on the second book: the same stream of numbers, a line for each call.

use yokehour_host::book::{Book, Outcome, SecondBook};
use yokehour_host::command::{encode, Command};
use yokehour_host::desk::Queues;
use yokehour_host::input::Input;
use yokehour_host::layout::{table_bytes, BLOCK_BYTES, MAX_BLOCKS, PANELS};
use yokehour_host::wire::fnv1a64;

/// Blocks of each pool, and how many keys are used on it.
const POOLS: [(usize, u32); 3] = [(4, 400), (9, 1_500), (64, 9_000)];
const TARIFF: [u32; 8] = [3, 1, 2, 1, 4, 4, 3, 2];
/// Batches on each pool, and as many desks.
const ROUNDS: usize = 60;
const MOST_COMMANDS: u32 = 400;
/// The kinds of commands that one is drawn from; queues have all but the last.
const KINDS: [u8; 9] = [1, 2, 2, 2, 2, 3, 4, 7, 5];

/// What the trial keeps from call to call.
struct Trial {
    state: u32,
    keys: u32,
    pool: Vec<u8>,
    table: Vec<u8>,
    answers: Vec<u8>,
}

/// The lines that the trial should print.
pub fn lines() -> String {
    let table = vec![0; table_bytes(MAX_BLOCKS * BLOCK_BYTES)];
    let answers = vec![0; MOST_COMMANDS as usize * 259];
    let mut trial = Trial { state: 1, keys: 0, pool: vec![0; MAX_BLOCKS * BLOCK_BYTES], table, answers };
    POOLS.map(|(blocks, keys)| trial.on_pool(blocks, keys)).concat()
}

impl Trial {
    /// A pseudo-random number below a limit (xorshift).
    fn below(&mut self, limit: u32) -> u32 {
        self.state ^= self.state << 13;
        self.state ^= self.state >> 17;
        self.state ^= self.state << 5;
        self.state % limit
    }

    fn command(&mut self, kinds: &[u8]) -> Command {
        match kinds[self.below(kinds.len() as u32) as usize] {
            1 => Command::Get { key: self.key() },
            2 => Command::Put { key: self.key(), value: self.key() },
            3 => Command::Delete { key: self.key() },
            4 => Command::Scan { low: self.key(), high: self.key(), most: 1 + self.below(32) as usize },
            5 => Command::Panel { panel: self.below(PANELS as u32) as usize },
            _ => Command::Ceiling { key: self.key() },
        }
    }

    fn key(&mut self) -> u32 {
        self.below(self.keys)
    }

    fn commands(&mut self, count: u32, kinds: &[u8]) -> Vec<u8> {
        encode(&(0..count).map(|_| self.command(kinds)).collect::<Vec<_>>())
    }

    /// Prepares a pool, and makes batches and desks on it by turns.
    fn on_pool(&mut self, blocks: usize, keys: u32) -> String {
        self.keys = keys;
        let pool_bytes = blocks * BLOCK_BYTES;
        let prepared = SecondBook.prepare(&mut self.pool[..pool_bytes], TARIFF);
        let calls = (0..ROUNDS).map(|_| self.batch(pool_bytes) + &self.desk(pool_bytes));
        format!("{prepared:016x} \n") + &calls.collect::<String>()
    }

    /// A batch; two in 16 meet a spoiled pool, one is a byte short, one has little room for answers.
    fn batch(&mut self, pool_bytes: usize) -> String {
        let (count, turn, place) = (self.below(MOST_COMMANDS), self.below(16), self.below(pool_bytes as u32) as usize);
        let mut batch = self.commands(count, &KINDS);
        if turn == 2 {
            batch.pop();
        }
        let spoil = if turn < 2 { 0x10 } else { 0 };
        self.pool[place] ^= spoil;
        let line = self.call(pool_bytes, &Input::Batch(batch), turn == 3);
        self.pool[place] ^= spoil;
        line
    }

    /// A desk; one in 16 has part of a length, one a byte too few, one little room, and one 05s in it.
    fn desk(&mut self, pool_bytes: usize) -> String {
        let turn = self.below(16);
        let kinds = if turn == 3 { &KINDS[..] } else { &KINDS[..8] };
        let mut queues = Queues::of(&(0..PANELS).map(|_| self.queue(kinds)).collect::<Vec<_>>());
        if turn == 0 {
            queues.lengths.pop();
        }
        if turn == 1 {
            queues.bytes.pop();
        }
        self.call(pool_bytes, &Input::Desk(queues), turn == 2)
    }

    /// One queue in four is empty.
    fn queue(&mut self, kinds: &[u8]) -> Vec<u8> {
        let count = if self.below(4) == 0 { 0 } else { self.below(MOST_COMMANDS / PANELS as u32) };
        self.commands(count, kinds)
    }

    /// Makes a call, and tells all that it left.
    fn call(&mut self, pool_bytes: usize, input: &Input, little_room: bool) -> String {
        let Trial { pool, table, answers, .. } = self;
        let room = if little_room { 100 } else { answers.len() };
        let outcome = input.run(&mut SecondBook, &mut pool[..pool_bytes], table, &mut answers[..room]);
        let Outcome { number, length, charges } = outcome;
        let hashes = [&pool[..pool_bytes], table, answers].map(fnv1a64);
        let numbers = [u64::from(number), length as u64].into_iter().chain(charges).chain(hashes);
        numbers.map(|number| format!("{number:016x} ")).collect::<String>() + "\n"
    }
}
