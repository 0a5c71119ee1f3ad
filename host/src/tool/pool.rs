//! A pool file, and the calls on it.

use std::time::Duration;

use super::file::Held;
use super::words::Options;
use super::{dump, Stop};
use crate::bench::timed;
use crate::book::Book;
use crate::command::{answer_room, encode, parse_answers, Answer, Command};
use crate::input::Input;
use crate::layout::{table_bytes, BLANK, BLOCK_BYTES, MAX_BLOCKS, MIN_BLOCKS, PANELS};
use crate::markdown::grouped;
use crate::mount::mount;
use crate::refusal::{words, Fault};

/// The length that was met, where it is none of a pool, and the nearest that would do.
pub(super) fn length_words(bytes: usize) -> String {
    let blocks = ((bytes + BLOCK_BYTES / 2) / BLOCK_BYTES).clamp(MIN_BLOCKS, MAX_BLOCKS);
    let [bytes, nearest] = [bytes, blocks * BLOCK_BYTES].map(|length| grouped(length as u128));
    format!("{bytes} bytes, where {nearest} ({blocks} blocks) are the nearest")
}

/// The options of a verb whose calls change the pool.
pub(super) const CALL_OPTIONS: &[&str] = &["--book", "--dry"];
/// The options of a verb that takes commands too, and notes what they cost.
pub(super) const CALL_OPTIONS_FROM: &[&str] = &["--book", "--from", "--dry", "--ledger"];
/// The options of a verb whose calls only look.
pub(super) const LOOK_OPTIONS: &[&str] = &["--book", "--charge", "--dry", "--spare", "--offset", "--swap"];

/// A pool in memory: the file changes with `save` alone, and only where it is held.
pub(super) struct Pool<'a> {
    name: &'a str,
    book: Box<dyn Book>,
    pub bytes: Vec<u8>,
    /// What each panel was charged by the calls so far.
    pub charges: [u64; PANELS],
    /// The file, locked from the first byte read to the last one written; none where it is left as it is.
    held: Option<Held>,
}

impl<'a> Pool<'a> {
    /// The pool of a file that calls shall change, unless they are dry ones.
    pub fn open(name: &'a str, options: &Options) -> Result<Pool<'a>, Stop> {
        if options.dry {
            return Pool::look(name, options);
        }
        let book = options.book()?;
        let mut held = Held::open(name)?;
        Ok(Pool { name, book, bytes: held.read()?, charges: [0; PANELS], held: Some(held) })
    }

    /// The pool of a file that is left as it is, whatever calls make of it in memory.
    pub fn look(name: &'a str, options: &Options) -> Result<Pool<'a>, Stop> {
        let book = options.book()?;
        Ok(Pool { name, book, bytes: dump::read(name, options)?, charges: [0; PANELS], held: None })
    }

    /// The pool of a file for calls that only look: they are charged where that is asked for.
    pub fn look_or_charge(name: &'a str, options: &Options) -> Result<Pool<'a>, Stop> {
        match (options.charge, options.form) {
            (true, Some(_)) => Err(Stop::wrong("--charge writes a pool, and a dump is only read")),
            (true, None) => Pool::open(name, options),
            (false, _) => Pool::look(name, options),
        }
    }

    /// A new pool, prepared; more blocks than any book takes are cut to one too many.
    pub fn prepared(name: &'a str, blocks: u32, tariff: [u32; 8], options: &Options) -> Result<Pool<'a>, Stop> {
        let blocks = (blocks as usize).min(MAX_BLOCKS + 1);
        let bytes = vec![BLANK; blocks * BLOCK_BYTES];
        let mut pool = Pool { name, book: options.book()?, bytes, charges: [0; PANELS], held: None };
        match pool.book.prepare(&mut pool.bytes, tariff) {
            0 => Ok(pool),
            number => Err(Stop::no(format!("{name}: refused with {number}: {}", words(number)))),
        }
    }

    /// Runs commands as one batch.
    pub fn batch(&mut self, commands: &[Command]) -> Result<Vec<Answer>, Stop> {
        self.call(&Input::batch(commands), answer_room(commands))
    }

    /// Runs commands as one batch on a copy: the pool stays as it is.
    pub fn try_batch(&mut self, commands: &[Command]) -> Result<Vec<Answer>, Stop> {
        let (bytes, charges) = (self.bytes.clone(), self.charges);
        let answers = self.batch(commands);
        (self.bytes, self.charges) = (bytes, charges);
        answers
    }

    /// The processor time that a batch of commands takes on a copy: the pool stays as it is.
    pub fn time(&mut self, commands: &[Command]) -> Result<Duration, Stop> {
        let mut copy = self.bytes.clone();
        let mut table = vec![0; table_bytes(copy.len())];
        let batch = encode(commands);
        let mut answers = vec![0; answer_room(commands)];
        let (outcome, time) = timed(|| self.book.batch(&mut copy, &mut table, &batch, &mut answers));
        match outcome.number {
            0 => Ok(time),
            number => Err(self.refused(number)),
        }
    }

    /// Makes a call with so much room for its answers.
    pub fn call(&mut self, input: &Input, room: usize) -> Result<Vec<Answer>, Stop> {
        let mut table = vec![0; table_bytes(self.bytes.len())];
        let mut answers = vec![0; room];
        let outcome = input.run(self.book.as_mut(), &mut self.bytes, &mut table, &mut answers);
        if outcome.number != 0 {
            return Err(self.refused(outcome.number));
        }
        self.charges.iter_mut().zip(outcome.charges).for_each(|(sum, charge)| *sum += charge);
        let answers = answers.get(..outcome.length).and_then(parse_answers);
        answers.ok_or_else(|| Stop::no(format!("{}: the book's answers cannot be read", self.name)))
    }

    /// What the calls so far were charged.
    pub fn charge(&self) -> u64 {
        self.charges.iter().sum()
    }

    /// The number that the book answers an empty batch on a copy with.
    pub fn number(mut self) -> u8 {
        let mut table = vec![0; table_bytes(self.bytes.len())];
        self.book.batch(&mut self.bytes, &mut table, &[], &mut []).number
    }

    /// A refusal in words, with the first place that tells why.
    fn refused(&self, number: u8) -> Stop {
        let place = match number {
            5..=8 => mount(&self.bytes)
                .err()
                .map(|Fault { at, why, .. }| format!(" ({at}: {why}; wallbook check tells all)")),
            1 => Some(format!(" ({})", length_words(self.bytes.len()))),
            _ => None,
        };
        Stop::no(format!("{}: refused with {number}: {}{}", self.name, words(number), place.unwrap_or_default()))
    }

    /// Writes the file, where it is not left as it is.
    pub fn save(&mut self) -> Result<(), Stop> {
        match &mut self.held {
            None => Ok(()),
            Some(held) => held.replace(&self.bytes),
        }
    }
}
