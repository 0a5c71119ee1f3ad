//! What a command makes the proved book copy.

use super::aged::{Aged, Mix};
use super::times::{batches, COMMANDS};
use super::{Rows, Setup};
use crate::book::Book;
use crate::books::by_name;
use crate::both::Call;
use crate::layout::MAX_BLOCKS;
use crate::markdown::{grouped, head};

/// The functions of the C library that copy or fill, in the order of [`Copies`].
const FUNCTIONS: [&str; 3] = ["memcpy", "memmove", "memset"];

/// Calls of a function, and the bytes that they copied or filled.
#[derive(Clone, Copy, PartialEq, Eq, Debug, Default)]
pub struct Moved {
    pub calls: u64,
    pub bytes: u64,
}

/// What `memcpy`, `memmove` and `memset` have done.
pub type Copies = [Moved; 3];

/// Does some work, and gives what was copied meanwhile; only a program that the linker made for it can count.
pub type Counter = fn(&mut dyn FnMut()) -> Copies;

pub fn rows(setup: &Setup) -> Rows {
    (setup.say)("counting copies");
    let aged = Aged::new(MAX_BLOCKS, Mix::Log)?;
    let mut proved = by_name("proved")?;
    let [empty, gets, puts] = batches(&aged).map(|call| copies(setup, proved.as_mut(), call));
    let empty = empty?;
    let commands = [per_command(gets?, empty), per_command(puts?, empty)];
    Ok(table(commands))
}

/// What a call copies.
fn copies(setup: &Setup, book: &mut dyn Book, mut call: Call) -> Result<Copies, String> {
    let mut number = 0;
    let copies = (setup.count_copies)(&mut || number = call.run(book).number);
    match number {
        0 if copies == Copies::default() => Err("no copy was counted; build.rs tells the linker to".to_string()),
        0 => Ok(copies),
        refused => Err(format!("a call to be counted was refused with {refused}")),
    }
}

/// Calls and bytes of one command, by function: those of a batch of them, less an empty batch, divided.
fn per_command(all: Copies, empty: Copies) -> [[f64; 2]; 3] {
    let one = |all: u64, empty: u64| (all as f64 - empty as f64) / COMMANDS as f64;
    std::array::from_fn(|at| [one(all[at].calls, empty[at].calls), one(all[at].bytes, empty[at].bytes)])
}

/// A row for each function and one for all, with what a get and a put do.
fn table(commands: [[[f64; 2]; 3]; 2]) -> Vec<Vec<String>> {
    let cell = |[calls, bytes]: [f64; 2]| [format!("{calls:.1}"), grouped(bytes.round() as u128)];
    let row = |name: &str, get, put| [vec![name.to_string()], cell(get).to_vec(), cell(put).to_vec()].concat();
    let all =
        |functions: [[f64; 2]; 3]| functions.into_iter().fold([0.0; 2], |all, one| [all[0] + one[0], all[1] + one[1]]);
    let [get, put] = commands;
    let mut rows = vec![head(&["function", "a get: calls", "bytes", "a put: calls", "bytes"])];
    rows.extend((0..3).map(|at| row(FUNCTIONS[at], get[at], put[at])));
    rows.push(row("all", all(get), all(put)));
    rows
}

#[cfg(test)]
mod tests {
    use super::*;

    #[test]
    fn a_command_copies_its_part_of_a_batch() {
        let moved = |calls, bytes| Moved { calls, bytes };
        let empty = [moved(10, 1_000), moved(0, 0), moved(1, 100)];
        let gets = [moved(4_010, 2_001_000), moved(0, 0), moved(1, 100)];
        let puts = [moved(6_010, 4_001_000), moved(1_000, 100_000), moved(1, 100)];
        let rows = table([per_command(gets, empty), per_command(puts, empty)]);
        assert_eq!(rows[1], ["memcpy", "2.0", "1,000", "3.0", "2,000"]);
        assert_eq!(rows[2], ["memmove", "0.0", "0", "0.5", "50"]);
        assert_eq!(rows[4], ["all", "2.0", "1,000", "3.5", "2,050"]);
    }
}
