//! What the tests share: a pool, and calls on it that are made on both books.

use yokehour_host::book::Outcome;
use yokehour_host::both::{self, Call};
use yokehour_host::command::{split_answers, Command};
use yokehour_host::desk::Queues;
use yokehour_host::input::Input;
use yokehour_host::layout::{page_range, table_bytes, BLOCK_BYTES, MIN_BLOCKS, PANELS};
use yokehour_host::page::{decode, used, Checkpoint, Content, Entry, Page};
use yokehour_host::wire::{fnv1a64, from_hex, to_hex};

/// The tariff of document 01's worked cases.
pub const WORKED: [u32; 8] = [3, 1, 2, 1, 4, 4, 3, 2];
/// A tariff that moves nothing.
pub const FREE: [u32; 8] = [0, 0, 0, 0, 0, 0, 1, 1];

/// A pool, and the answers of the last batch.
pub struct Fixture {
    pub pool: Vec<u8>,
    pub answers: Vec<u8>,
}

impl Fixture {
    /// A pool prepared by both books.
    pub fn prepared(blocks: usize, tariff: [u32; 8]) -> Fixture {
        let mut pool = vec![0xA5; blocks * BLOCK_BYTES];
        assert_eq!(prepare(&mut pool, tariff), 0);
        Fixture { pool, answers: Vec::new() }
    }

    /// Runs commands as one batch on both books.
    pub fn batch(&mut self, commands: &[Command]) -> Outcome {
        let pool = std::mem::take(&mut self.pool);
        self.run(Call::new(pool, commands))
    }

    /// Runs bytes as one batch on both books, with so much room for answers.
    pub fn batch_of_bytes(&mut self, batch: Vec<u8>, room: usize) -> Outcome {
        let pool = std::mem::take(&mut self.pool);
        self.run(Call { input: Input::Batch(batch), answers: vec![0x66; room], ..Call::new(pool, &[]) })
    }

    /// Runs a batch given in hexadecimal with so much room for its answers: its number, answers, charges and pool.
    pub fn batch_of_hex(&mut self, hex: &str, room: usize) -> (u8, String, [u64; PANELS], String) {
        let outcome = self.batch_of_bytes(bytes(hex), room);
        (outcome.number, to_hex(&self.answers), outcome.charges, self.hash())
    }

    /// Serves queues of commands on both books.
    pub fn desk(&mut self, queues: &[Vec<Command>]) -> Outcome {
        let pool = std::mem::take(&mut self.pool);
        self.run(Call::desk(pool, queues))
    }

    /// Serves queues given in hexadecimal, as [`Fixture::batch_of_hex`] runs a batch.
    pub fn desk_of_hex(&mut self, lengths: &str, queues: &str, room: usize) -> (u8, String, [u64; PANELS], String) {
        let queues = Queues { lengths: bytes(lengths), bytes: bytes(queues) };
        let pool = std::mem::take(&mut self.pool);
        let outcome = self.run(Call { input: Input::Desk(queues), answers: vec![0x66; room], ..Call::new(pool, &[]) });
        (outcome.number, to_hex(&self.answers), outcome.charges, self.hash())
    }

    fn run(&mut self, mut call: Call) -> Outcome {
        let outcome = make(&mut call);
        self.pool = call.pool;
        self.answers = call.answers;
        self.answers.truncate(outcome.length);
        outcome
    }

    /// The answers as lines of hexadecimal.
    pub fn lines(&self) -> Vec<String> {
        split_answers(&self.answers).expect("whole answers").into_iter().map(to_hex).collect()
    }

    /// The pool's hash, as traces have it.
    pub fn hash(&self) -> String {
        format!("{:016x}", fnv1a64(&self.pool))
    }

    /// The used bytes of a page as hexadecimal.
    pub fn page_hex(&self, page: usize) -> String {
        to_hex(used(&self.pool[page_range(page)]))
    }

    /// What a written page says.
    pub fn page(&self, page: usize) -> Page {
        decode(&self.pool[page_range(page)]).expect("checks").expect("written")
    }
}

/// The pool of the worked cases after prepare, and its hash.
pub fn prepared() -> Fixture {
    Fixture::prepared(MIN_BLOCKS, WORKED)
}
pub const PREPARED: &str = "e5938a6f1717e51f";

/// Makes a call on both books, which must agree in everything.
pub fn make(call: &mut Call) -> Outcome {
    call.make().unwrap_or_else(|why| panic!("{why}"))
}

/// The number that a get on a pool comes to, on both books.
pub fn number_of(pool: Vec<u8>) -> u8 {
    make(&mut Call::new(pool, &[get(1)])).number
}

/// The length of the smallest pool, and of its table.
pub const POOL_BYTES: usize = MIN_BLOCKS * BLOCK_BYTES;
pub const TABLE_BYTES: usize = table_bytes(POOL_BYTES);

/// The pages of [`good`]'s pool: prepare's two, and a log page and a checkpoint page of its batch.
pub const FIRST_LOG_PAGE: usize = 0;
pub const FIRST_CHECKPOINT_PAGE: usize = 1;
pub const LOG_PAGE: usize = 2;
pub const CHECKPOINT_PAGE: usize = 3;

/// A call that is accepted, with bytes behind what it needs of table and answers.
pub fn good() -> Call {
    let mut fixture = Fixture::prepared(MIN_BLOCKS, WORKED);
    fixture.batch(&[put(1, 2), put(3, 4)]);
    let mut call = Call::new(fixture.pool, &[get(1)]);
    call.table.extend([0x78; 100]);
    call.answers.extend([0x67; 50]);
    call
}

/// The number that a call comes to on both books; the books agree, and the buffers are as they should be.
pub fn number(mut call: Call) -> u8 {
    make(&mut call).number
}

/// The number that the good call comes to when a page is changed and its sum mended.
pub fn number_with(page: usize, change: impl FnOnce(&mut Page)) -> u8 {
    let mut call = good();
    mend(&mut call.pool, page, change);
    number(call)
}

/// Changes a page and mends its sum.
pub fn mend(pool: &mut [u8], page: usize, change: impl FnOnce(&mut Page)) {
    let bytes = &mut pool[page_range(page)];
    let mut decoded = decode(bytes).expect("checks").expect("written");
    change(&mut decoded);
    bytes.copy_from_slice(&decoded.encode());
}

/// What a checkpoint page holds.
pub fn checkpoint_of(page: &mut Page) -> &mut Checkpoint {
    match &mut page.content {
        Content::Checkpoint(content) => content,
        other => panic!("no checkpoint page: {other:?}"),
    }
}

/// The entries of a log page.
pub fn entries_of(page: &mut Page) -> &mut Vec<Entry> {
    match &mut page.content {
        Content::Log(entries) => entries,
        other => panic!("no log page: {other:?}"),
    }
}

/// The number of the good call with its newest checkpoint page changed.
pub fn number_with_checkpoint(change: impl FnOnce(&mut Checkpoint)) -> u8 {
    number_with(CHECKPOINT_PAGE, |page| change(checkpoint_of(page)))
}

/// Prepares a pool with both books, which must agree in everything.
pub fn prepare(pool: &mut [u8], tariff: [u32; 8]) -> u8 {
    both::prepare(pool, tariff).unwrap_or_else(|why| panic!("{why}"))
}

/// The sixteen charges where these panels have these, and the others none.
pub fn charges<const N: usize>(charged: [(usize, u64); N]) -> [u64; PANELS] {
    let mut charges = [0; PANELS];
    charged.into_iter().for_each(|(panel, charge)| charges[panel] = charge);
    charges
}

/// The charges of a refused batch.
pub const NONE: [u64; PANELS] = [0; PANELS];

/// The bytes of hexadecimal with blanks that make it readable.
pub fn bytes(hex: &str) -> Vec<u8> {
    from_hex(&plain(hex)).expect("is hexadecimal")
}

/// Hexadecimal without the blanks that make it readable.
pub fn plain(hex: &str) -> String {
    hex.split_whitespace().collect()
}

pub fn get(key: u32) -> Command {
    Command::Get { key }
}

pub fn put(key: u32, value: u32) -> Command {
    Command::Put { key, value }
}

pub fn delete(key: u32) -> Command {
    Command::Delete { key }
}

pub fn scan(low: u32, high: u32, most: usize) -> Command {
    Command::Scan { low, high, most }
}

pub fn panel(panel: usize) -> Command {
    Command::Panel { panel }
}

pub fn ceiling(key: u32) -> Command {
    Command::Ceiling { key }
}
