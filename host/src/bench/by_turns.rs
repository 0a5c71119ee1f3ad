//! Calls on both books by turns, so that what slows the machine for a while slows both.

use std::time::Duration;

use super::clock::timed;
use super::place::at_place;
use super::Setup;
use crate::book::Book;
use crate::books::by_name;
use crate::both::Call;

/// Calls in a row on one book: the first finds other data in the caches.
const REPEATS: usize = 2;

/// A time of the proved book, and one of the second.
pub type Times = [Duration; 2];

/// Makes each call on each book, round by round and each round at another place of the stack, and gives the shortest
/// times of each call.
pub fn shortest(setup: &Setup, calls: &[Call], rounds: usize) -> Result<Vec<Times>, String> {
    let mut books = [by_name("proved")?, by_name("second")?];
    let mut shortest = vec![[Duration::MAX; 2]; calls.len()];
    for round in 0..rounds {
        if round % rounds.div_ceil(8) == 0 {
            (setup.say)(&format!("round {} of {rounds}", round + 1));
        }
        for (call, times) in calls.iter().zip(&mut shortest) {
            for (book, least) in books.iter_mut().zip(times) {
                for _ in 0..REPEATS {
                    let mut lent = call.clone();
                    let time = at_place(round, &mut || time(book.as_mut(), &mut lent))?;
                    *least = time.min(*least);
                }
            }
        }
    }
    Ok(shortest)
}

/// The time of a call on a book.
fn time(book: &mut dyn Book, call: &mut Call) -> Result<Duration, String> {
    let (outcome, time) = timed(|| call.run(book));
    accepted(outcome.number).map(|()| time)
}

/// The pool after a call, which both books must make alike.
pub fn pool_after(mut call: Call) -> Result<Vec<u8>, String> {
    accepted(call.make()?.number)?;
    Ok(call.pool)
}

fn accepted(number: u8) -> Result<(), String> {
    match number {
        0 => Ok(()),
        refused => Err(format!("a call to be timed was refused with {refused}")),
    }
}

/// The cells of two times: each with so many decimals, and how many times as long the proved book takes.
pub fn cells(times: [f64; 2], decimals: usize) -> [String; 3] {
    let [proved, second] = times.map(|time| format!("{time:.decimals$}"));
    [proved, second, format!("{:.2}", times[0] / times[1])]
}
