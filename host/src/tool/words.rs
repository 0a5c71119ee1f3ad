//! The words of a command line: options apart, the others one by one.

use super::dump::Form;
use super::Stop;
use crate::book::Book;
use crate::books::{by_name, BOOK_NAMES};
use crate::output::note;

/// The options that were given.
#[derive(Default)]
pub(super) struct Options {
    /// The book's name, if one was named.
    book: Option<String>,
    /// Where commands are read from.
    pub from: Option<String>,
    /// The ledger's name, if one was named.
    pub ledger: Option<String>,
    pub charge: bool,
    pub dry: bool,
    pub force: bool,
    pub all: bool,
    pub json: bool,
    /// How a dump lies, if that is told.
    pub form: Option<Form>,
    pub help: bool,
    pub version: bool,
}

/// An option for the help: its name, the word behind it, and what it does.
pub(super) type Told = (&'static str, &'static str, &'static str);

/// What each option does, for the help.
pub(super) const OPTIONS: &[Told] = &[
    ("--book", "NAME", "the book that does the work: proved or second; where not given, proved if the build has it"),
    ("--from", "FILE", "read the commands from a file, or from standard input for -"),
    ("--charge", "", "let the book count these reads, by which it chooses how a node is stored; the file then changes"),
    ("--dry", "", "leave the file as it is, whatever the call does"),
    ("--force", "", "write the file anew where it is there already; what it holds is lost"),
    ("--all", "", "doubtful pairs too, the likeliest of each key"),
    ("--json", "", "as one line of JSON"),
    ("--spare", "N", "so many bytes behind each page of a dump are left out"),
    ("--offset", "N", "so many bytes before the pool are left out"),
    ("--swap", "", "the two bytes of each 16-bit word are swapped"),
    ("--ledger", "FILE", "a ledger of charges: run and desk note each accepted call there, html shows it"),
];

impl Options {
    /// Takes the options out of a line.
    pub fn of(line: &[String]) -> Result<(Vec<&str>, Options), Stop> {
        let mut options = Options::default();
        let mut words = Vec::new();
        let mut line = line.iter().map(String::as_str);
        while let Some(word) = line.next() {
            match word {
                "--help" | "-h" => options.help = true,
                "--version" => options.version = true,
                "--charge" => options.charge = true,
                "--dry" => options.dry = true,
                "--force" => options.force = true,
                "--all" => options.all = true,
                "--json" => options.json = true,
                "--book" => options.book = Some(value(word, line.next(), &format!("one of: {BOOK_NAMES}"))?),
                "--offset" => options.form().offset = bytes(word, line.next())?,
                "--spare" => options.form().spare = bytes(word, line.next())?,
                "--swap" => options.form().swap = true,
                "--from" => options.from = Some(value(word, line.next(), "a file, or - for standard input")?),
                "--ledger" => options.ledger = Some(value(word, line.next(), "a file")?),
                _ if word.starts_with("--") => return Err(Stop::wrong(format!("no option is called {word}"))),
                _ => words.push(word),
            }
        }
        Ok((words, options))
    }

    /// Refuses the options that a verb does not know.
    pub fn only(&self, known: &[&str]) -> Result<(), Stop> {
        let given = [
            ("--book", self.book.is_some()),
            ("--from", self.from.is_some()),
            ("--charge", self.charge),
            ("--dry", self.dry),
            ("--force", self.force),
            ("--all", self.all),
            ("--json", self.json),
            ("--spare", self.form.is_some()),
            ("--ledger", self.ledger.is_some()),
        ];
        match given.iter().find(|(name, given)| *given && !known.contains(name)) {
            Some((name, _)) => Err(Stop::wrong(format!("{name} means nothing here"))),
            None => Ok(()),
        }
    }

    /// How a dump lies, to be told more of.
    fn form(&mut self) -> &mut Form {
        self.form.get_or_insert_default()
    }

    /// The book that was asked for; the best that there is, where none was.
    pub fn book(&self) -> Result<Box<dyn Book>, Stop> {
        match &self.book {
            Some(name) => by_name(name).map_err(|missing| Stop::wrong(format!("{missing}; or take --book second"))),
            None => by_name("proved").or_else(|missing| {
                note(&format!("wallbook: the second book does the work: {missing}\n"));
                by_name("second").map_err(Stop::wrong)
            }),
        }
    }
}

/// The word behind an option.
fn value(option: &str, word: Option<&str>, what: &str) -> Result<String, Stop> {
    word.map(str::to_string).ok_or_else(|| Stop::wrong(format!("{option} needs {what}")))
}

/// The count of bytes behind an option.
fn bytes(option: &str, word: Option<&str>) -> Result<usize, Stop> {
    let word = value(option, word, "a count of bytes")?;
    let wrong = || Stop::wrong(format!("{option} needs a count of bytes, a number below 2^32, not {word:?}"));
    number(&word).map(|bytes| bytes as usize).ok_or_else(wrong)
}

/// The words behind a verb.
pub(super) struct Words<'a> {
    rest: std::slice::Iter<'a, &'a str>,
}

impl<'a> Words<'a> {
    pub fn of(words: &'a [&'a str]) -> Words<'a> {
        Words { rest: words.iter() }
    }

    /// The next word, if there is one.
    pub fn next(&mut self) -> Option<&'a str> {
        self.rest.next().copied()
    }

    /// The next word, which must be there.
    pub fn word(&mut self, what: &str) -> Result<&'a str, Stop> {
        self.next().ok_or_else(|| Stop::wrong(format!("{what} expected")))
    }

    /// The next word, a number.
    pub fn number(&mut self, what: &str) -> Result<u32, Stop> {
        let word = self.word(what)?;
        number(word).ok_or_else(|| Stop::wrong(format!("{what} expected, a number below 2^32, not {word:?}")))
    }

    /// All words that are left.
    pub fn rest(&mut self) -> Vec<&'a str> {
        self.rest.by_ref().copied().collect()
    }

    /// Says whether a word is left.
    pub fn any_left(&self) -> bool {
        self.rest.len() > 0
    }

    /// The next word, a number, if there is one.
    pub fn number_if_any(&mut self, what: &str) -> Result<Option<u32>, Stop> {
        if !self.any_left() {
            return Ok(None);
        }
        self.number(what).map(Some)
    }

    /// Nothing may follow.
    pub fn end(&mut self) -> Result<(), Stop> {
        match self.next() {
            None => Ok(()),
            Some(word) => Err(Stop::wrong(format!("{word:?} is too much"))),
        }
    }
}

/// A number in decimal, or in hexadecimal behind 0x.
pub(super) fn number(word: &str) -> Option<u32> {
    let (digits, base) = match word.strip_prefix("0x").or(word.strip_prefix("0X")) {
        Some(digits) => (digits, 16),
        None => (word, 10),
    };
    // The library would also take a sign.
    let plain = digits.chars().all(|digit| digit.is_digit(base));
    u32::from_str_radix(digits, base).ok().filter(|_| plain)
}

/// So many of a thing.
pub(super) fn counted(count: usize, thing: &str) -> String {
    format!("{count} {thing}{}", if count == 1 { "" } else { "s" })
}

#[cfg(test)]
mod tests {
    use super::*;

    #[test]
    fn numbers_are_decimal_or_hexadecimal() {
        let read = ["0", "7", "4294967295", "0x0", "0xfF", "0XFFFFFFFF"].map(number);
        assert_eq!(read, [0, 7, u32::MAX, 0, 255, u32::MAX].map(Some));
        for wrong in ["", "0x", "-1", "+1", "0x+1", "4294967296", "0x100000000", "1e3", " 1", "ff"] {
            assert_eq!(number(wrong), None, "{wrong:?}");
        }
    }

    #[test]
    fn options_stand_anywhere() {
        let line = ["--dry", "get", "FILE", "--book", "second", "7"].map(str::to_string);
        let (words, options) = Options::of(&line).expect("understood");
        assert_eq!(words, ["get", "FILE", "7"]);
        assert_eq!((options.dry, options.force, options.book.as_deref()), (true, false, Some("second")));
        assert!(options.only(&["--dry", "--book"]).is_ok());
        assert!(options.only(&["--dry"]).is_err());
    }
}
