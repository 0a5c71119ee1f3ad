//! A pool with all that it is compared with.

use std::collections::BTreeMap;

use super::call::{random_call, refused, refused_call, refused_prepares};
use super::charges::{self, NodeCharges};
use super::commands::{Chooser, MAX_PUTS};
use super::queues::{batch_or_desk, distribute};
use super::style::CommandStyle;
use super::{random_blocks, Tally};
use crate::account::{Account, Tariff};
use crate::audit::{add_wraps, Audit, Seen};
use crate::book::Outcome;
use crate::both::{self, Call};
use crate::command::{encode_answers, Answer, Command};
use crate::foreign::{self, random_tariff, Build, PoolStyle, BRINK_BLOCKS};
use crate::input::Input;
use crate::layout::{node_limit, BLOCK_BYTES, FIRST_CHECKPOINT_SCORES, MAX_SEQUENCE, PAGE_BYTES};
use crate::mount::{read, Mounted};
use crate::node::Pair;
use crate::page::{is_blank, sums_wrap};
use crate::random::Random;
use crate::reference::{in_turns, PaperBook, Run};
use crate::refusal::Refusal;
use crate::score_order;
use crate::tree::{self, IDS_USED_UP};

/// A pool, and what the reference model and an ordered map say of it.
pub(super) struct CheckedPool {
    pool: Vec<u8>,
    paper: PaperBook,
    map: BTreeMap<u32, u32>,
    /// What each node was charged; for a prepared pool alone.
    charges: Option<Vec<NodeCharges>>,
    /// Puts so far, for keys that ascend.
    puts: u32,
    /// The pool's greatest sequence number; above the limit no batch is accepted any more.
    last_sequence: u32,
    /// Whether its keys and values are high, and those of its puts are to be.
    high: bool,
}

impl CheckedPool {
    /// A pool of an accepted prepare, after prepares that are refused.
    pub fn prepared(random: &mut Random, tally: &mut Tally) -> Result<CheckedPool, String> {
        let blocks = random_blocks(random);
        let numbers = random_tariff(random);
        let mut pool = random.bytes(blocks * BLOCK_BYTES);
        refused_prepares(random, tally, &mut pool, numbers)?;
        let number = both::prepare(&mut pool, numbers)?;
        tally.calls += 1;
        let tariff = Tariff::from_numbers(numbers).filter(|_| number == 0);
        let tariff = tariff.ok_or_else(|| format!("prepare with {numbers:?} was refused with {number}"))?;
        let paper = PaperBook::prepared(node_limit(blocks), tariff);
        let mut checked = CheckedPool { charges: Some(Vec::new()), ..CheckedPool::with(pool, paper) };
        checked.check_pool()?;
        Ok(checked)
    }

    pub fn foreign(random: &mut Random, tally: &mut Tally) -> CheckedPool {
        let style = match random.below(7) {
            0 | 1 => PoolStyle { blocks: random_blocks(random), build: Build::Tight },
            2 => PoolStyle { blocks: random.between(BRINK_BLOCKS, 16), build: Build::Brink },
            3 => PoolStyle { blocks: random_blocks(random), build: Build::High },
            _ => PoolStyle { blocks: random_blocks(random), build: Build::Any },
        };
        let foreign = foreign::make(random, style);
        count_foreign(tally, style.build, &foreign.pool);
        CheckedPool { high: style.build == Build::High, ..CheckedPool::with(foreign.pool, foreign.paper) }
    }

    /// A pool that opens, compared with what it spells.
    pub fn opened(pool: Vec<u8>, mounted: Mounted) -> CheckedPool {
        let accounts = mounted.rows.iter().map(|row| row.account).collect();
        let limit = node_limit(pool.len() / BLOCK_BYTES);
        CheckedPool::with(pool, PaperBook { limit, tariff: mounted.tariff, nodes: mounted.nodes, accounts })
    }

    fn with(pool: Vec<u8>, paper: PaperBook) -> CheckedPool {
        let map = tree::pairs(&paper.nodes).into_iter().map(|pair| (pair.key, pair.pointer)).collect();
        CheckedPool { pool, paper, map, charges: None, puts: 0, last_sequence: 0, high: false }
    }

    pub fn pool(&self) -> &[u8] {
        &self.pool
    }

    pub fn blocks(&self) -> usize {
        self.pool.len() / BLOCK_BYTES
    }

    /// How to choose commands for this pool.
    pub fn random_style(&self, random: &mut Random) -> CommandStyle {
        let style = CommandStyle::random(random);
        if self.high {
            style.high()
        } else {
            style
        }
    }

    /// A batch or a desk that is accepted, and now and then a call before it that is not.
    pub fn any_call(&mut self, random: &mut Random, tally: &mut Tally, style: &CommandStyle) -> Result<(), String> {
        if random.once_in(4) {
            refused_call(random, &self.pool, tally)?;
        }
        let commands = self.random_commands(random, style);
        if self.last_sequence > MAX_SEQUENCE {
            let input = batch_or_desk(random, &commands);
            let call = random_call(random, self.pool.clone(), input);
            return refused(call, Refusal::SequenceNumbers.number(), tally);
        }
        if random.once_in(3) {
            let queues = distribute(random, &commands);
            return self.desk(random, tally, &queues);
        }
        self.batch(random, tally, &commands)
    }

    /// Puts keys until some are refused with 9, or enough is enough.
    pub fn fill(&mut self, random: &mut Random, tally: &mut Tally, style: &CommandStyle) -> Result<(), String> {
        let puts = style.only_puts();
        let before = tally.ids_used_up;
        for _ in 0..12 {
            let mut commands = self.random_commands(random, &puts);
            commands.truncate(MAX_PUTS);
            self.batch(random, tally, &commands)?;
            if tally.ids_used_up > before {
                break;
            }
        }
        Ok(())
    }

    /// Commands that the pool's keys make likely to matter.
    pub fn random_commands(&mut self, random: &mut Random, style: &CommandStyle) -> Vec<Command> {
        // A pool that was not built by the style's keys has its own.
        let near = if self.charges.is_some() { 8 } else { 2 };
        Chooser { style, map: &self.map, puts: &mut self.puts, near }.commands(random)
    }

    fn batch(&mut self, random: &mut Random, tally: &mut Tally, commands: &[Command]) -> Result<(), String> {
        let mut call = random_call(random, self.pool.clone(), Input::batch(commands));
        self.run(tally, &mut call, commands)?;
        tally.batches += 1;
        Ok(())
    }

    /// Serves queues; the batch of their commands as joined here must leave the same of the same buffers.
    fn desk(&mut self, random: &mut Random, tally: &mut Tally, queues: &[Vec<Command>]) -> Result<(), String> {
        let joined = in_turns(queues);
        let mut call = random_call(random, self.pool.clone(), Input::desk(queues));
        let mut batch = Call { input: Input::batch(&joined), ..call.clone() };
        let outcome = self.run(tally, &mut call, &joined)?;
        let of_batch = batch.make()?;
        if of_batch != outcome {
            return Err(format!("a desk came to {outcome:?}, the batch of its joined bytes to {of_batch:?}"));
        }
        if (batch.pool, batch.table, batch.answers) != (call.pool, call.table, call.answers) {
            return Err("a desk leaves other bytes than the batch of its joined bytes".to_string());
        }
        tally.calls += 1;
        tally.desks.count_accepted(queues);
        Ok(())
    }

    /// Makes a call that does these commands, and asks everything of it.
    fn run(&mut self, tally: &mut Tally, call: &mut Call, commands: &[Command]) -> Result<Outcome, String> {
        let modes = self.paper.accounts.iter().map(|account| account.mode).collect();
        let nodes_before = self.paper.nodes.len();
        let run = self.paper.batch(commands);
        let mut audit = Audit::new(&self.pool, modes, self.paper.limit, &run.lines);
        let outcome = call.make_observed(&mut audit)?;
        if outcome.number != 0 {
            return Err(format!("a good call was refused with {}", outcome.number));
        }
        let seen = audit.finish(&call.pool)?;
        check_run(call, outcome, &run)?;
        self.pool.clone_from(&call.pool);
        self.check_answers(commands, &run.answers, tally)?;
        self.check_pool()?;
        self.check_charges(&run, tally)?;
        tally.too_few_ids += run.too_few_ids;
        tally.ceilings.add(&run.ceilings);
        tally.of_several_panels += u64::from(outcome.panels_charged() > 1);
        self.count(tally, commands, &seen, nodes_before);
        Ok(outcome)
    }

    fn count(&self, tally: &mut Tally, commands: &[Command], seen: &Seen, nodes_before: usize) {
        tally.calls += 1;
        tally.commands += commands.len() as u64;
        let count = |wanted: fn(&&Command) -> bool| commands.iter().filter(wanted).count() as u64;
        tally.scans += count(|command| matches!(command, Command::Scan { .. }));
        tally.panels += count(|command| matches!(command, Command::Panel { .. }));
        tally.multi_page_checkpoints += u64::from(self.paper.nodes.len() > FIRST_CHECKPOINT_SCORES);
        // Splits below the root create one node each, the root's two.
        let created = (self.paper.nodes.len() - nodes_before) as u64;
        tally.root_splits += created - seen.splits;
        tally.seen.add(seen);
    }

    /// Asks the ordered map for every answer.
    fn check_answers(&mut self, commands: &[Command], answers: &[Answer], tally: &mut Tally) -> Result<(), String> {
        let answered = commands.iter().enumerate().filter(|(_, command)| command.is_answered());
        for ((at, command), answer) in answered.zip(answers) {
            let expected = match (*command, answer) {
                (Command::Put { key, .. }, Answer::Refused(IDS_USED_UP)) if !self.map.contains_key(&key) => {
                    tally.ids_used_up += 1;
                    Some(Answer::Refused(IDS_USED_UP))
                }
                (command, _) => answer_of_map(&mut self.map, command),
            };
            if expected.as_ref() != Some(answer) {
                return Err(format!("command {at}, {command:?}, was answered with {answer:?}, not {expected:?}"));
            }
            tally.keys_deleted += u64::from(matches!(answer, Answer::Deleted(_)));
        }
        Ok(())
    }

    /// Opens the pool and compares what it spells with map and reference model.
    ///
    /// A pool may end above the greatest sequence number that opens; it still spells what it should.
    fn check_pool(&mut self) -> Result<(), String> {
        let mounted = read(&self.pool).map_err(|fault| format!("the pool does not open again: {fault}"))?;
        self.last_sequence = mounted.last_sequence;
        if mounted.tariff != self.paper.tariff {
            return Err("the tariff has changed".to_string());
        }
        let accounts: Vec<Account> = mounted.rows.iter().map(|row| row.account).collect();
        if accounts != self.paper.accounts {
            return Err(format!("modes and scores {accounts:?}, in the reference model {:?}", self.paper.accounts));
        }
        if mounted.nodes != self.paper.nodes {
            return Err("the pool spells other nodes than the reference model has".to_string());
        }
        let pairs = tree::pairs(&mounted.nodes).into_iter();
        if !pairs.eq(self.map.iter().map(|(&key, &pointer)| Pair { key, pointer })) {
            return Err("the pool spells another map".to_string());
        }
        Ok(())
    }

    fn check_charges(&mut self, run: &Run, tally: &mut Tally) -> Result<(), String> {
        let Some(nodes) = &mut self.charges else { return Ok(()) };
        nodes.resize(self.paper.nodes.len(), NodeCharges::default());
        charges::check(nodes, &self.paper.tariff, &run.lines, tally)
    }
}

/// Counts a foreign pool.
fn count_foreign(tally: &mut Tally, build: Build, pool: &[u8]) {
    tally.foreign_pools += 1;
    tally.tight_pools += u64::from(build == Build::Tight);
    tally.brink_pools += u64::from(build == Build::Brink);
    tally.high_pools += u64::from(build == Build::High);
    tally.reordered_pools += u64::from(score_order::check(pool).is_err());
    for page in pool.chunks_exact(PAGE_BYTES).filter(|page| !is_blank(page)) {
        add_wraps(&mut tally.foreign_sums_wrapped, sums_wrap(page));
    }
}

/// Answers and charges of an accepted call are the reference model's, and add up to what its node requests cost.
fn check_run(call: &Call, outcome: Outcome, run: &Run) -> Result<(), String> {
    if call.answers[..outcome.length] != encode_answers(&run.answers) {
        return Err("the answer bytes are not the reference model's".to_string());
    }
    if outcome.charges != run.charges {
        return Err(format!("the charges are {:?}, in the reference model {:?}", outcome.charges, run.charges));
    }
    let requests: u64 = run.lines.iter().map(|line| line.charge).sum();
    if outcome.charge() != requests {
        return Err(format!("the charges add up to {}, the node requests cost {requests}", outcome.charge()));
    }
    Ok(())
}

/// What the map answers; nothing to a panel.
fn answer_of_map(map: &mut BTreeMap<u32, u32>, command: Command) -> Option<Answer> {
    Some(match command {
        Command::Get { key } => map.get(&key).map_or(Answer::Absent, |&value| Answer::Got(value)),
        Command::Put { key, value } => map.insert(key, value).map_or(Answer::Absent, Answer::Replaced),
        Command::Delete { key } => map.remove(&key).map_or(Answer::Absent, Answer::Deleted),
        Command::Scan { low, high, .. } if low > high => Answer::Pairs(Vec::new()),
        Command::Scan { low, high, most } => {
            Answer::Pairs(map.range(low..=high).take(most).map(|(&key, &pointer)| Pair { key, pointer }).collect())
        }
        Command::Ceiling { key } => {
            map.range(key..).next().map_or(Answer::Absent, |(&key, &pointer)| Answer::Ceiling(Pair { key, pointer }))
        }
        Command::Panel { .. } => return None,
    })
}
