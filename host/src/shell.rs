//! The line tool: a line in, lines out.

use std::collections::BTreeMap;
use std::path::PathBuf;
use std::str::SplitWhitespace;

use crate::book::Book;
use crate::desk::Queues;
use crate::input::Input;
use crate::layout::{page_at, table_bytes, BLANK, BLOCK_BYTES};
use crate::mount::mount;
use crate::page::used;
use crate::spell::spell;
use crate::tool::file::{self, Held};
use crate::wire::{fnv1a64, from_hex, to_hex};

/// The lines that the shell knows, for help and for errors.
pub const LINES: &str = "  prepare B t0 .. t7     prepares B blocks of 16,384 bytes: number N pool H
  batch HEX              runs a batch: number N answers HEX charges C0,..,C15 pool H, a charge for each panel
  desk LENGTHS QUEUES    serves queues, both in HEX, four bytes a length; it answers as a batch does
  load FILE              sets the pool from a file: loaded LENGTH
  save [--force] FILE    writes the pool to a file: saved LENGTH; one that is there already must be as it was last
                         loaded or saved here, unless --force is given
  lengths TABLE ANSWERS  sets the lengths of table and answer buffer for calls after it
                         (at first, and for -: 1,024 x B and 700,000): lengths TABLE ANSWERS
  spell                  a line for each node, or: refused N
  dump PAGE              the used bytes of a page; pages count through the pool from 0
  help                   these lines
  quit                   ends, as the end of the lines does
H is FNV-1a-64 of the pool in 16 hexadecimal digits; - stands for no bytes at all.
A line that is none of these answers error .. and changes nothing; blank lines and lines from # answer nothing.
prepare lends the pool at hand if it has B blocks already, or else a new one of FF.";

/// The line that ends the shell.
pub const QUIT: &str = "quit";

/// Bytes of the answer buffer at first: room for the longest batch.
const ANSWER_BYTES: usize = 700_000;
/// Longest pool that prepare makes, so that a slip of a digit does not take the memory; far above what a book accepts.
const MAX_PREPARED_BLOCKS: usize = 1024;
/// Longest table and answer buffer that can be asked for.
const MAX_BUFFER: usize = 1 << 30;

/// A shell with its pool.
pub struct Shell {
    book: Box<dyn Book>,
    pool: Vec<u8>,
    table_bytes: Option<usize>,
    answer_bytes: Option<usize>,
    /// The hash of what each file held when it was last loaded or saved here.
    seen: BTreeMap<PathBuf, u64>,
}

impl Shell {
    pub fn new(book: Box<dyn Book>) -> Shell {
        Shell { book, pool: Vec::new(), table_bytes: None, answer_bytes: None, seen: BTreeMap::new() }
    }

    /// Answers one line.
    pub fn answer(&mut self, line: &str) -> Vec<String> {
        if line.trim().is_empty() || line.trim_start().starts_with('#') {
            return Vec::new();
        }
        self.run(line).unwrap_or_else(|error| vec![format!("error {error}")])
    }

    fn run(&mut self, line: &str) -> Result<Vec<String>, String> {
        let mut words = line.split_whitespace();
        let verb = words.next().unwrap_or_default();
        match verb {
            "prepare" => self.prepare(words).map(one),
            "batch" => self.batch(words).map(one),
            "desk" => self.desk(words).map(one),
            "load" => self.load(file_name(line, verb)?).map(one),
            "save" => self.save(file_name(line, verb)?).map(one),
            "lengths" => self.lengths(words).map(one),
            "spell" => ended(words).map(|()| self.spell()),
            "dump" => self.dump(words).map(one),
            "help" => ended(words).map(|()| LINES.lines().map(str::to_string).collect()),
            _ => Err(format!("no line begins with {verb:?}; help lists them")),
        }
    }

    fn prepare(&mut self, mut words: SplitWhitespace<'_>) -> Result<String, String> {
        let blocks: usize = number(&mut words, "blocks")?;
        if blocks > MAX_PREPARED_BLOCKS {
            return Err(format!("at most {MAX_PREPARED_BLOCKS} blocks"));
        }
        let mut tariff = [0; 8];
        for place in &mut tariff {
            *place = number(&mut words, "eight tariff numbers")?;
        }
        ended(words)?;
        if self.pool.len() != blocks * BLOCK_BYTES {
            self.pool = vec![BLANK; blocks * BLOCK_BYTES];
        }
        let number = self.book.prepare(&mut self.pool, tariff);
        Ok(format!("number {number} pool {}", self.hash()))
    }

    fn batch(&mut self, mut words: SplitWhitespace<'_>) -> Result<String, String> {
        let batch = bytes(&mut words, "a batch is")?;
        ended(words)?;
        self.call(&Input::Batch(batch))
    }

    fn desk(&mut self, mut words: SplitWhitespace<'_>) -> Result<String, String> {
        let lengths = bytes(&mut words, "lengths are")?;
        let bytes = bytes(&mut words, "queues are")?;
        ended(words)?;
        self.call(&Input::Desk(Queues { lengths, bytes }))
    }

    fn call(&mut self, input: &Input) -> Result<String, String> {
        // What the table holds at entry means nothing, so it is anything but zero.
        let mut table = vec![0xA5; self.table_bytes()];
        let mut answers = vec![0; self.answer_bytes()];
        let outcome = input.run(self.book.as_mut(), &mut self.pool, &mut table, &mut answers);
        let answers = answers.get(..outcome.length).ok_or("the book answers more than its buffer holds")?;
        let answers = if answers.is_empty() { "-".to_string() } else { to_hex(answers) };
        let charges = outcome.charges.map(|charge| charge.to_string()).join(",");
        Ok(format!("number {} answers {answers} charges {charges} pool {}", outcome.number, self.hash()))
    }

    fn load(&mut self, name: &str) -> Result<String, String> {
        self.pool = file::read(name).map_err(|stop| stop.to_string())?;
        self.see(name);
        Ok(format!("loaded {}", self.pool.len()))
    }

    fn save(&mut self, words: &str) -> Result<String, String> {
        let (name, force) = match words.strip_prefix("--force ") {
            Some(name) => (name.trim_start(), true),
            None => (words, false),
        };
        self.write(name, force)?;
        self.see(name);
        Ok(format!("saved {}", self.pool.len()))
    }

    /// Writes the pool to a file. One that is there and was seen here is locked and looked at again, so that what
    /// somebody else put into it meanwhile is not lost.
    fn write(&self, name: &str, force: bool) -> Result<(), String> {
        let seen = place(name).and_then(|place| self.seen.get(&place)).filter(|_| !force);
        let Some(seen) = seen else {
            return file::write(name, &self.pool, &[], force).map_err(|stop| stop.to_string());
        };
        let mut held = Held::open(name).map_err(|stop| stop.to_string())?;
        if fnv1a64(&held.read().map_err(|stop| stop.to_string())?) != *seen {
            return Err(format!("{name} was changed since it was last loaded or saved here; save --force writes it"));
        }
        held.replace(&self.pool).map_err(|stop| stop.to_string())
    }

    /// Notes that a file holds the pool.
    fn see(&mut self, name: &str) {
        let kept = place(name).filter(|place| place.is_file());
        self.seen.extend(kept.map(|place| (place, fnv1a64(&self.pool))));
    }

    fn lengths(&mut self, mut words: SplitWhitespace<'_>) -> Result<String, String> {
        let table = length(&mut words, "a table length")?;
        let answers = length(&mut words, "an answer length")?;
        ended(words)?;
        (self.table_bytes, self.answer_bytes) = (table, answers);
        Ok(format!("lengths {} {}", self.table_bytes(), self.answer_bytes()))
    }

    fn spell(&self) -> Vec<String> {
        match mount(&self.pool) {
            Ok(mounted) => spell(&mounted),
            Err(fault) => one(format!("refused {}", fault.refusal.number())),
        }
    }

    fn dump(&self, mut words: SplitWhitespace<'_>) -> Result<String, String> {
        let page: usize = number(&mut words, "a page")?;
        ended(words)?;
        let bytes = used(page_at(&self.pool, page).ok_or_else(|| format!("no page {page}"))?);
        Ok(if bytes.is_empty() { "-".to_string() } else { to_hex(bytes) })
    }

    fn table_bytes(&self) -> usize {
        self.table_bytes.unwrap_or(table_bytes(self.pool.len()))
    }

    fn answer_bytes(&self) -> usize {
        self.answer_bytes.unwrap_or(ANSWER_BYTES)
    }

    fn hash(&self) -> String {
        format!("{:016x}", fnv1a64(&self.pool))
    }
}

/// Where a name leads, if something is there.
fn place(name: &str) -> Option<PathBuf> {
    std::fs::canonicalize(name).ok()
}

fn one(line: String) -> Vec<String> {
    vec![line]
}

fn number<N: std::str::FromStr>(words: &mut SplitWhitespace<'_>, what: &str) -> Result<N, String> {
    let word = words.next().ok_or_else(|| format!("{what} expected"))?;
    word.parse().map_err(|_| format!("{what} expected, not {word:?}"))
}

/// Bytes in hexadecimal; `-`, or no word at all, is none.
fn bytes(words: &mut SplitWhitespace<'_>, what: &str) -> Result<Vec<u8>, String> {
    match words.next() {
        None | Some("-") => Ok(Vec::new()),
        Some(hex) => from_hex(hex).ok_or_else(|| format!("{what} pairs of hexadecimal digits")),
    }
}

/// A buffer's length; `-` is the one it had at first.
fn length(words: &mut SplitWhitespace<'_>, what: &str) -> Result<Option<usize>, String> {
    let mut ahead = words.clone();
    if ahead.next() == Some("-") {
        *words = ahead;
        return Ok(None);
    }
    let bytes = number(words, what)?;
    if bytes > MAX_BUFFER {
        return Err(format!("{what} of at most {MAX_BUFFER} expected"));
    }
    Ok(Some(bytes))
}

fn ended(mut words: SplitWhitespace<'_>) -> Result<(), String> {
    match words.next() {
        None => Ok(()),
        Some(word) => Err(format!("{word:?} is too much")),
    }
}

/// The rest of a line, which may have blanks inside.
fn file_name<'a>(line: &'a str, verb: &str) -> Result<&'a str, String> {
    let name = line.trim_start().strip_prefix(verb).unwrap_or_default().trim();
    if name.is_empty() {
        Err("a file name expected".to_string())
    } else {
        Ok(name)
    }
}

#[cfg(test)]
mod tests {
    use super::*;
    use crate::book::SecondBook;

    fn shell() -> Shell {
        Shell::new(Box::new(SecondBook))
    }

    #[test]
    fn the_worked_batch() {
        let mut shell = shell();
        assert_eq!(shell.answer("prepare 4 3 1 2 1 4 4 3 2"), ["number 0 pool e5938a6f1717e51f"]);
        let batch = "batch 0200080000000700000064010004000000070300040000000701000400000007";
        let (answers, charges) = ("8000008100040000006483000400000064800000", "14,0,0,0,0,0,0,0,0,0,0,0,0,0,0,0");
        let expected = format!("number 0 answers {answers} charges {charges} pool cb649dfb17d509a7");
        assert_eq!(shell.answer(batch), [expected]);
        assert_eq!(shell.answer("spell"), ["node 0 leaf log score 3 version 1 link 4294967295 pairs -"]);
        let log = "1000040000000412000f0000000000010100000007000000641200\
                   0f0000000000010200000007000000001f0004135000d2";
        assert_eq!(shell.answer("dump 2"), [log]);
        assert_eq!(shell.answer("dump 4"), ["-"]);
    }

    #[test]
    fn a_charge_for_each_panel() {
        let mut shell = shell();
        shell.answer("prepare 4 3 1 2 1 4 4 3 2");
        let batch = "batch 0500010302000800000007000000640500010f0100040000000703000400000007";
        let expected = "answers 8000008100040000006483000400000064 charges 0,0,0,4,0,0,0,0,0,0,0,0,0,0,0,7 pool";
        let answer = &shell.answer(batch)[0];
        assert!(answer.contains(expected), "{answer}");
        let silent = &shell.answer("batch 05000107")[0];
        assert!(silent.starts_with("number 0 answers - charges 0,0,"), "{silent}");
    }

    #[test]
    fn queues_at_a_desk() {
        let mut shell = shell();
        shell.answer("prepare 4 3 1 2 1 4 4 3 2");
        let queues = "020008000000070000006401000400000007 0100040000000703000400000007".replace(' ', "");
        let (answers, charges) =
            ("800000810004000000648100040000006483000400000064", "7,11,0,0,0,0,0,0,0,0,0,0,0,0,0,0");
        let expected = format!("number 0 answers {answers} charges {charges} pool 455a56a2d1d014a8");
        assert_eq!(shell.answer(&format!("desk 000000120000000e {queues}")), [expected]);
        for line in ["desk - -", "desk 00000000 -", "desk 0000000000000000", "desk"] {
            let answer = &shell.answer(line)[0];
            assert!(answer.starts_with("number 0 answers - charges 0,0,"), "{line}: {answer}");
        }
    }

    #[test]
    fn refused_calls() {
        let mut shell = shell();
        shell.answer("prepare 4 3 1 2 1 4 4 3 2");
        let none = "0,0,0,0,0,0,0,0,0,0,0,0,0,0,0,0";
        let refused = |number: u8| format!("number {number} answers - charges {none} pool e5938a6f1717e51f");
        assert_eq!(shell.answer("batch 05"), [refused(3)]);
        assert_eq!(shell.answer("desk 00000004 05000100"), [refused(3)]);
        assert_eq!(shell.answer("desk 0000000700 01000400000000"), [refused(11)]);
        assert_eq!(shell.answer("desk - 01000400000000"), [refused(11)]);
        shell.answer("lengths 4095 700000");
        assert_eq!(shell.answer("batch -"), [refused(2)]);
        assert_eq!(shell.answer("desk - 05"), [refused(2)]);
        shell.answer("lengths 4096 6");
        assert_eq!(shell.answer("batch 01000400000000"), [refused(4)]);
        assert_eq!(shell.answer("lengths - -"), ["lengths 4096 700000"]);
        assert_eq!(shell.answer("prepare 4 3 1 2 1 4 4 0 2"), ["number 10 pool e5938a6f1717e51f"]);
        assert!(shell.answer("prepare 3 3 1 2 1 4 4 3 2")[0].starts_with("number 1 pool "));
    }

    #[test]
    fn malformed_lines_change_nothing() {
        let mut shell = shell();
        shell.answer("prepare 4 3 1 2 1 4 4 3 2");
        let before = shell.hash();
        for line in [
            "prepare",
            "prepare 5 1 2 3",
            "prepare 5 1 2 3 4 5 6 7 8 9",
            "prepare 5 1 2 3 4 5 6 7 -8",
            "prepare 99999 1 1 1 1 1 1 1 1",
            "batch 0",
            "batch xx",
            "batch 00 00",
            "desk 0 00",
            "desk 00 xx",
            "desk 00 00 00",
            "load",
            "load /nowhere/at/all",
            "lengths",
            "lengths 1",
            "lengths 1 x",
            "spell 1",
            "dump",
            "dump 128",
            "dump 99999999999999999999",
            "dump 18446744073709551615",
            "nonsense",
        ] {
            let answer = shell.answer(line);
            assert!(answer.len() == 1 && answer[0].starts_with("error "), "{line}: {answer:?}");
        }
        assert_eq!(shell.hash(), before);
        assert_eq!(shell.answer("lengths - -"), ["lengths 4096 700000"]);
        assert!(shell.answer("  # a remark").is_empty());
    }

    #[test]
    fn pools_go_to_files_and_back() {
        let name = std::env::temp_dir().join(format!("yokehour-shell-{}.pool", std::process::id()));
        let name = name.to_str().expect("a plain path");
        let mut shell = shell();
        shell.answer("prepare 4 3 1 2 1 4 4 3 2");
        assert_eq!(shell.answer(&format!("save {name}")), ["saved 65536"]);
        let mut other = Shell::new(Box::new(SecondBook));
        assert_eq!(other.answer(&format!("load {name}")), ["loaded 65536"]);
        assert_eq!(other.hash(), shell.hash());
        std::fs::remove_file(name).expect("was written");
    }

    #[test]
    fn a_file_that_is_there_is_saved_to_as_it_was_seen_alone() {
        let name = std::env::temp_dir().join(format!("yokehour-seen-{}.pool", std::process::id()));
        let name = name.to_str().expect("a plain path");
        std::fs::write(name, "a letter").expect("is written");
        let mut shell = shell();
        shell.answer("prepare 4 3 1 2 1 4 4 3 2");
        let there = shell.answer(&format!("save {name}"));
        assert!(there[0].starts_with("error ") && there[0].contains("is there already"), "{there:?}");
        assert_eq!(std::fs::read(name).expect("is there"), b"a letter");
        assert_eq!(shell.answer(&format!("save --force {name}")), ["saved 65536"]);
        shell.answer("batch 0200080000000700000064");
        assert_eq!(shell.answer(&format!("save {name}")), ["saved 65536"], "as it was saved last");
        let mut other = Shell::new(Box::new(SecondBook));
        other.answer(&format!("load {name}"));
        other.answer("batch 0200080000000800000064");
        assert_eq!(other.answer(&format!("save {name}")), ["saved 65536"], "as it was loaded");
        let lost = shell.answer(&format!("save {name}"));
        assert!(lost[0].starts_with("error ") && lost[0].contains("was changed since"), "{lost:?}");
        assert_eq!(shell.answer(&format!("load {name}")), ["loaded 65536"]);
        assert_eq!(shell.hash(), other.hash());
        std::fs::remove_file(name).expect("was written");
    }
}
