//! A call on both books: each is lent buffers of its own, and everything is compared.

use crate::book::{self, Book, Outcome};
use crate::books::proved_to_compare;
use crate::command::{answer_room, Command};
use crate::desk::Queues;
use crate::input::Input;
use crate::layout::{table_bytes, PANELS};
use crate::observe::{Observer, Unobserved};
use crate::score_order;

/// The buffers that a batch or a desk is lent.
#[derive(Clone)]
pub struct Call {
    pub pool: Vec<u8>,
    pub table: Vec<u8>,
    pub input: Input,
    pub answers: Vec<u8>,
}

impl Call {
    /// A batch of these commands with buffers that are just long enough, and not zero.
    pub fn new(pool: Vec<u8>, commands: &[Command]) -> Call {
        let table = vec![0x77; table_bytes(pool.len())];
        Call { pool, table, input: Input::batch(commands), answers: vec![0x66; answer_room(commands)] }
    }

    /// A desk of these queues with buffers that are just long enough, and not zero.
    pub fn desk(pool: Vec<u8>, queues: &[Vec<Command>]) -> Call {
        Call { input: Input::desk(queues), ..Call::new(pool, &queues.concat()) }
    }

    /// Makes the call on a book.
    pub fn run(&mut self, book: &mut dyn Book) -> Outcome {
        self.input.run(book, &mut self.pool, &mut self.table, &mut self.answers)
    }

    /// Makes the call on both books and gives what both came to, or where they part.
    pub fn make(&mut self) -> Result<Outcome, String> {
        self.make_observed(&mut Unobserved)
    }

    /// Makes the call as [`Call::make`] does, with an observer of the second book.
    ///
    /// The buffers are then as the second book left them, and as document 01 says.
    pub fn make_observed(&mut self, observer: &mut dyn Observer) -> Result<Outcome, String> {
        let found = self.clone();
        let outcome = self.run_observed(observer);
        self.compare(found.clone(), outcome)?;
        match outcome.number {
            0 => self.check_accepted(&found, outcome)?,
            _ => self.check_refused(&found, outcome)?,
        }
        Ok(outcome)
    }

    /// Makes the call on the second book.
    fn run_observed(&mut self, observer: &mut dyn Observer) -> Outcome {
        let Call { pool, table, input, answers } = self;
        match input {
            Input::Batch(batch) => book::batch(pool, table, batch, answers, observer),
            Input::Desk(Queues { lengths, bytes }) => book::desk(pool, table, lengths, bytes, answers, observer),
        }
    }

    /// Makes the call on the proved book with the buffers as they were found, and compares everything.
    fn compare(&self, mut found: Call, outcome: Outcome) -> Result<(), String> {
        let Some(mut proved) = proved_to_compare()? else { return Ok(()) };
        let other = found.run(proved.as_mut());
        if other != outcome {
            return Err(format!("the second book came to {outcome:?}, the proved one to {other:?}"));
        }
        same("pool", &self.pool, &found.pool)?;
        same("table", &self.table, &found.table)?;
        same("answers", &self.answers, &found.answers)
    }

    /// An accepted call zeroes the table, leaves the bytes behind the answers, and writes the scores in node order.
    fn check_accepted(&self, found: &Call, outcome: Outcome) -> Result<(), String> {
        self.check_table(found)?;
        score_order::check(&self.pool)?;
        let beyond = self.answers.get(outcome.length..).ok_or("the answers are longer than their buffer")?;
        if found.answers[outcome.length..] != *beyond {
            return Err("answer bytes behind the answers changed".to_string());
        }
        Ok(())
    }

    /// A refused call returns no length and no charges and leaves pool and answers; from 3 on it zeroes the table.
    fn check_refused(&self, found: &Call, outcome: Outcome) -> Result<(), String> {
        let number = outcome.number;
        if (outcome.length, outcome.charges) != (0, [0; PANELS]) {
            return Err(format!("a refused call came to {outcome:?}"));
        }
        if self.pool != found.pool || self.answers != found.answers {
            return Err(format!("a call refused with {number} changed pool or answers"));
        }
        match number {
            1 | 2 if self.table != found.table => Err(format!("a call refused with {number} changed the table")),
            1 | 2 => Ok(()),
            _ => self.check_table(found),
        }
    }

    /// The table's first bytes are zero and those behind them as found.
    fn check_table(&self, found: &Call) -> Result<(), String> {
        let (zero, beyond) = self.table.split_at(table_bytes(self.pool.len()));
        if zero.iter().any(|&byte| byte != 0) || !found.table.ends_with(beyond) {
            return Err("the table is not zero first and as found behind".to_string());
        }
        Ok(())
    }
}

/// Prepares a pool with both books and gives what both came to, or where they part.
pub fn prepare(pool: &mut [u8], tariff: [u32; 8]) -> Result<u8, String> {
    let found = pool.to_vec();
    let number = book::prepare(pool, tariff, &mut Unobserved);
    if let Some(mut proved) = proved_to_compare()? {
        let mut other_pool = found.clone();
        let other = proved.prepare(&mut other_pool, tariff);
        if other != number {
            return Err(format!("prepare with {tariff:?} came to {number}, of the proved book to {other}"));
        }
        same("pool", pool, &other_pool)?;
    }
    if number != 0 && *pool != *found {
        return Err(format!("a prepare refused with {number} changed the pool"));
    }
    if number == 0 {
        score_order::check(pool)?;
    }
    Ok(number)
}

/// Asks that both books leave the same bytes in a buffer.
fn same(buffer: &str, second: &[u8], proved: &[u8]) -> Result<(), String> {
    if second == proved {
        return Ok(());
    }
    let at = second.iter().zip(proved).take_while(|(one, other)| one == other).count();
    Err(format!("the books leave other bytes in the {buffer}, first in byte {at}"))
}
