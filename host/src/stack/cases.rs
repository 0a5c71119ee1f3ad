//! Calls that bring a book's stack deep: a hostile pool and a deep tree, by batch and by desk, and random batches.

use super::deepest;
use crate::book::{Book, Outcome};
use crate::both::Call;
use crate::command::Command;
use crate::foreign::{self, flaw::LEFT_PATH, Build, Foreign, PoolStyle};
use crate::fuzz::Script;
use crate::input::Input;
use crate::layout::{BLOCK_BYTES, MAX_BLOCKS, MAX_SCAN_PAIRS, MIN_BLOCKS};
use crate::random::Random;
use crate::reference::PaperBook;
use crate::refusal::Refusal;
use crate::tree::{self, Work};

/// Calls on a book, and the deepest stack that one of them took.
pub struct Case {
    pub name: &'static str,
    run: fn(&mut dyn Book) -> Result<usize, String>,
}

/// All cases.
pub const CASES: [Case; 6] = [
    Case { name: "prepare, 4 and 64 blocks", run: prepares },
    Case {
        name: "batch refused with 7: 4 blocks, a leftmost path of eight branches",
        run: |book| left_paths(book, &Input::batch(&[])),
    },
    Case { name: "desk refused with 7: the same pools", run: |book| left_paths(book, &Input::in_queues(&[])) },
    Case {
        name: "batch of gets, puts, deletes, scans and ceilings: 64 blocks, nine levels in log mode",
        run: |book| deep_trees(book, Input::batch),
    },
    Case { name: "desk of the same commands in sixteen queues", run: |book| deep_trees(book, Input::in_queues) },
    Case { name: "batches at random: 2,000 on 200 pools", run: random_batches },
];

impl Case {
    /// The deepest stack of the case's calls, in bytes; or what was not as the case should be.
    pub fn deepest(&self, book: &mut dyn Book) -> Result<usize, String> {
        (self.run)(book).map_err(|why| format!("{}: {why}", self.name))
    }
}

/// Makes a call, and gives what it came to and the stack that it took.
fn make(book: &mut dyn Book, call: &mut Call) -> Result<(Outcome, usize), String> {
    deepest(|| call.run(book))
}

fn prepares(book: &mut dyn Book) -> Result<usize, String> {
    let mut most = 0;
    for blocks in [MIN_BLOCKS, MAX_BLOCKS] {
        let mut pool = vec![0; blocks * BLOCK_BYTES];
        let (number, bytes) = deepest(|| book.prepare(&mut pool, [3, 1, 2, 1, 4, 4, 3, 2]))?;
        expect(number, 0)?;
        most = most.max(bytes);
    }
    Ok(most)
}

/// Pools of 17 nodes whose tree is walked as deep as any before it is found unsound.
fn left_paths(book: &mut dyn Book, input: &Input) -> Result<usize, String> {
    let mut random = Random::new(17);
    let mut most = 0;
    for build in [Build::Tight, Build::Any].repeat(10) {
        let pool = LEFT_PATH.make(&mut random, PoolStyle { blocks: MIN_BLOCKS, build }).ok_or("no such pool")?;
        let mut call = Call { input: input.clone(), ..Call::new(pool, &[]) };
        let (outcome, bytes) = make(book, &mut call)?;
        expect(outcome.number, LEFT_PATH.number)?;
        most = most.max(bytes);
    }
    Ok(most)
}

/// Pools of nine levels; in one of them at least, a put splits a leaf and two branches.
fn deep_trees(book: &mut dyn Book, input: fn(&[Command]) -> Input) -> Result<usize, String> {
    let mut random = Random::new(9);
    let (mut most, mut most_created) = (0, 0);
    for _ in 0..6 {
        let style = PoolStyle { blocks: MAX_BLOCKS, build: Build::Deep };
        let Foreign { pool, paper } = foreign::make(&mut random, style);
        let (created, put) = splitting_put(&paper).ok_or("a deep tree has keys")?;
        let commands = deep_commands(&paper, put);
        let mut call = Call { input: input(&commands), ..Call::new(pool, &commands) };
        let (outcome, bytes) = make(book, &mut call)?;
        expect(outcome.number, 0)?;
        (most, most_created) = (most.max(bytes), most_created.max(created));
    }
    match most_created {
        3.. => Ok(most),
        created => Err(format!("no put creates three nodes, the most are {created}")),
    }
}

/// The put beside a key of the tree that creates the most nodes, and how many those are.
fn splitting_put(paper: &PaperBook) -> Option<(usize, Command)> {
    let pairs = tree::pairs(&paper.nodes).into_iter();
    let puts = pairs.map(|pair| Command::Put { key: pair.key.wrapping_add(1), value: 1 });
    puts.map(|put| (nodes_created(paper, &put), put)).max_by_key(|&(created, _)| created)
}

fn nodes_created(paper: &PaperBook, command: &Command) -> usize {
    let mut steps = Vec::new();
    tree::plan(&paper.nodes, paper.limit, command, &mut steps);
    steps.iter().filter(|step| matches!(step.work, Work::Create(_))).count()
}

/// The put first; then at every twentieth key a get, a put beside it, a delete, a scan to the next and a ceiling.
fn deep_commands(paper: &PaperBook, put: Command) -> Vec<Command> {
    let pairs = tree::pairs(&paper.nodes);
    let commands = |keys: &[u32]| {
        let (key, high) = (keys[0], keys[1]);
        [
            Command::Get { key },
            Command::Put { key: key.wrapping_add(1), value: 2 },
            Command::Delete { key },
            Command::Scan { low: key, high, most: MAX_SCAN_PAIRS },
            Command::Ceiling { key },
        ]
    };
    let keys: Vec<u32> = pairs.iter().step_by(20).map(|pair| pair.key).collect();
    std::iter::once(put).chain(keys.windows(2).flat_map(commands)).collect()
}

/// Batches one after another on random pools; above the greatest sequence number a pool opens no more.
fn random_batches(book: &mut dyn Book) -> Result<usize, String> {
    let mut random = Random::new(2000);
    let mut most = 0;
    for _ in 0..200 {
        let Script { mut pool, batches } = Script::random(&mut random, 10)?;
        for commands in batches {
            let mut call = Call::new(pool, &commands);
            let (outcome, bytes) = make(book, &mut call)?;
            if outcome.number != Refusal::SequenceNumbers.number() {
                expect(outcome.number, 0)?;
            }
            most = most.max(bytes);
            pool = call.pool;
        }
    }
    Ok(most)
}

fn expect(number: u8, expected: u8) -> Result<(), String> {
    match number == expected {
        true => Ok(()),
        false => Err(format!("a call came to number {number}, not {expected}")),
    }
}
