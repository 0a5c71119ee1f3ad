//! `wallbook`: the book for a person, in words and numbers; a verb a file.
//!
//! A verb gives what it says and an exit status: 0 is done, 1 a no (a refusal, an absent key, a fault, a difference),
//! 2 a request that cannot be understood or a file that cannot be used.

mod answer;
mod bench;
mod ceiling;
mod check;
mod csv;
mod delete;
mod desk;
mod diff;
mod doubts;
mod dump;
mod export;
mod fault_runs;
pub(crate) mod file;
mod get;
mod help;
mod html;
mod import;
mod json;
mod ledger;
mod lines;
mod node;
mod packing;
mod page;
mod picture;
mod plan;
mod pool;
mod prepare;
mod progress;
mod put;
mod rebuild;
mod refused;
mod remains;
mod room;
mod run;
mod salvage;
mod scan;
mod show;
mod stats;
mod tariff;
#[cfg(test)]
mod trial;
mod words;

use crate::program::{version, Stop};
use words::{Options, Words};

/// A verb: how it is asked for, what it does, and its code.
pub struct Verb {
    pub name: &'static str,
    /// The words behind its name.
    words: &'static str,
    /// What it does, in a line.
    about: &'static str,
    /// The rest of what a person has to know.
    more: &'static str,
    options: &'static [&'static str],
    run: fn(&mut Words<'_>, &Options) -> Result<Said, Stop>,
}

/// All verbs, in the order of the help.
#[rustfmt::skip]
pub const VERBS: &[Verb] = &[
    prepare::VERB, get::VERB, put::VERB, delete::VERB, scan::VERB, ceiling::VERB, import::VERB, export::VERB,
    run::VERB, desk::VERB, check::VERB, stats::VERB, show::VERB, page::VERB, node::VERB, diff::VERB, salvage::VERB,
    rebuild::VERB, picture::VERB, html::VERB, ledger::VERB, bench::VERB,
];

/// What a verb says: on standard output, then on standard error; and its exit status.
#[derive(Clone, PartialEq, Eq, Debug, Default)]
pub struct Said {
    pub text: String,
    pub note: String,
    pub status: u8,
}

impl Said {
    fn text(text: impl Into<String>) -> Said {
        Said { text: text.into(), ..Said::default() }
    }
}

/// Does what the words of a command line ask.
pub fn run(line: &[String]) -> Said {
    answer(line).unwrap_or_else(|stop| Said {
        note: format!("wallbook: {}\n", stop.why),
        status: stop.status,
        ..Said::default()
    })
}

fn answer(line: &[String]) -> Result<Said, Stop> {
    let (words, options) = Options::of(line)?;
    if options.version {
        return Ok(Said::text(version("wallbook")));
    }
    let (name, rest) = match words.split_first() {
        Some((&name, rest)) => (name, rest),
        None if options.help => return Ok(Said::text(help::all())),
        None => return Err(Stop::wrong(format!("a verb expected\n{}", help::all().trim_end()))),
    };
    if name == "help" {
        return help::about(rest);
    }
    let verb = named(name)?;
    if options.help {
        return Ok(Said::text(help::one(verb)));
    }
    let hint = |stop: Stop| match stop.status {
        2 => Stop { why: format!("{name}: {} (wallbook help {name})", stop.why), ..stop },
        _ => stop,
    };
    options.only(verb.options).map_err(hint)?;
    (verb.run)(&mut Words::of(rest), &options).map_err(hint)
}

fn named(name: &str) -> Result<&'static Verb, Stop> {
    let unknown = || Stop::wrong(format!("no verb is called {name:?}; wallbook help lists them"));
    VERBS.iter().find(|verb| verb.name == name).ok_or_else(unknown)
}

#[cfg(test)]
mod tests {
    use super::trial::{said, Folder};
    use super::*;
    use crate::damage;
    use crate::foreign::{self, Build, PoolStyle};
    use crate::random::Random;

    #[test]
    fn every_verb_has_its_help() {
        let all = said(&["help"]);
        assert_eq!((all.status, said(&["--help"])), (0, all.clone()));
        for verb in VERBS {
            assert!(all.text.contains(&format!("\n  {} ", verb.name)), "{}", verb.name);
            let one = said(&["help", verb.name]);
            assert_eq!((one.status, said(&[verb.name, "--help"])), (0, one.clone()));
            assert!(one.text.starts_with(&format!("usage: wallbook {} ", verb.name)), "{}", one.text);
            assert!(one.text.contains(verb.about) && one.text.contains(verb.more));
            for option in verb.options {
                assert!(one.text.contains(&format!("\n  {option}")), "{}: {option}", verb.name);
            }
            assert!(one.text.lines().all(|line| line.len() <= 120), "{}", one.text);
        }
    }

    #[test]
    fn no_bytes_make_a_verb_fall() {
        let folder = Folder::new("any");
        let (name, other, out) = (folder.file("p"), folder.prepared("q"), folder.file("out"));
        let mut random = Random::new(12);
        for round in 0..60 {
            let mut pool = foreign::make(&mut random, PoolStyle { blocks: 4, build: Build::Any }).pool;
            match round % 4 {
                0 => damage::change_byte(&mut random, &mut pool),
                1 => damage::change_mended(&mut random, &mut pool),
                2 => damage::move_pages(&mut random, &mut pool),
                _ => pool = random.bytes(round * 700),
            }
            std::fs::write(&name, pool).expect("is written");
            for verb in ["check", "stats", "show", "node", "salvage", "export"] {
                assert!(said(&[verb, &name]).status < 2, "{verb}");
            }
            for verb in ["page", "get", "ceiling", "node", "delete"] {
                said(&[verb, &name, &random.below(8).to_string()]);
            }
            assert!(said(&["diff", &name, &other]).status < 2);
            for verb in ["picture", "html"] {
                assert_eq!(said(&[verb, &name, &out, "--force"]).status, 0, "{verb}");
            }
            for all in ["--force", "--all"] {
                assert!(said(&["rebuild", &name, &out, all, "--force"]).status < 2, "{all}");
            }
        }
    }

    #[test]
    fn what_is_not_understood_has_status_2() {
        for line in [
            &[][..],
            &["nonsense"],
            &["help", "nonsense"],
            &["help", "get", "more"],
            &["get"],
            &["get", "--book"],
            &["get", "--nonsense"],
            &["get", "FILE", "7", "--force"],
            &["get", "/nowhere/at/all", "7"],
            &["get", "/nowhere/at/all", "7", "8"],
        ] {
            let said = said(line);
            assert_eq!((said.status, said.text.as_str()), (2, ""), "{line:?}");
            assert!(said.note.starts_with("wallbook: "), "{line:?}: {}", said.note);
        }
    }
}
