//! `bench`: what a batch and each command takes on a pool.

use std::time::Duration;

use super::pool::Pool;
use super::progress::Progress;
use super::scan::scanned;
use super::words::{counted, Options, Words};
use super::{Said, Stop, Verb};
use crate::command::Command;
use crate::layout::MAX_SCAN_PAIRS;
use crate::node::Pair;
use crate::random::Random;

/// Commands of a batch that one command's time is taken from.
const COMMANDS: usize = 1_000;
/// How often each batch is run.
const ROUNDS: usize = 20;

pub(super) const VERB: Verb = Verb {
    name: "bench",
    words: "FILE",
    about: "how long an empty batch, a get, a put, a scan and a ceiling take on a pool",
    more: "Microseconds of processor time. Each batch runs 20 times on a copy of the pool, and the shortest counts.\n\
           A get, a put of the value that is there, a scan for 32 pairs and a ceiling of the next number are a batch\n\
           of 1,000 at keys taken at random, less an empty batch, divided. The program `bench` times both books on\n\
           pools of its own.",
    options: &["--book", "--spare", "--offset", "--swap"],
    run,
};

fn run(words: &mut Words<'_>, options: &Options) -> Result<Said, Stop> {
    let name = words.word("a file")?;
    words.end()?;
    let mut pool = Pool::look(name, options)?;
    let pairs = scanned(&mut pool, 0, u32::MAX, usize::MAX)?.pairs;
    let mut progress = Progress::new("batches timed");
    let mut shortest = |commands: &[Command]| shortest(&mut pool, commands, &mut progress);
    let empty = shortest(&[])?;
    let mut text = format!("{name}: {}\n{}", counted(pairs.len(), "key"), line("empty batch", micros(empty)));
    if pairs.is_empty() {
        return Ok(Said { text, note: "no key to get, to put or to scan from\n".to_string(), status: 0 });
    }
    let sample = sample(&pairs);
    for (what, command) in KINDS {
        let commands: Vec<Command> = sample.iter().map(command).collect();
        let all = shortest(&commands)?;
        text.push_str(&line(what, micros(all.saturating_sub(empty)) / COMMANDS as f64));
    }
    Ok(Said::text(text))
}

/// A kind of command, by its name: one at a key that is there.
type Kind = (&'static str, fn(&Pair) -> Command);

const KINDS: [Kind; 4] = [
    ("get", |pair| Command::Get { key: pair.key }),
    ("put", |pair| Command::Put { key: pair.key, value: pair.pointer }),
    ("scan", |pair| Command::Scan { low: pair.key, high: u32::MAX, most: MAX_SCAN_PAIRS }),
    ("ceiling", |pair| Command::Ceiling { key: pair.key.saturating_add(1) }),
];

/// As many pairs as a batch has commands, the same in every run.
fn sample(pairs: &[Pair]) -> Vec<Pair> {
    let mut random = Random::new(1);
    (0..COMMANDS).map(|_| pairs[random.below(pairs.len())]).collect()
}

/// The shortest time of a batch.
fn shortest(pool: &mut Pool<'_>, commands: &[Command], progress: &mut Progress) -> Result<Duration, Stop> {
    let mut least = Duration::MAX;
    for round in 0..ROUNDS {
        least = least.min(pool.time(commands)?);
        progress.tell(round + 1);
    }
    Ok(least)
}

fn micros(time: Duration) -> f64 {
    time.as_secs_f64() * 1e6
}

fn line(what: &str, micros: f64) -> String {
    format!("{what:<11} {micros:>9.2}\n")
}

#[cfg(test)]
mod tests {
    use crate::tool::trial::{said, text, Folder};

    #[test]
    fn every_kind_of_command_is_timed_on_a_copy() {
        let folder = Folder::new("bench");
        let pool = folder.prepared("p");
        let empty = said(&["bench", &pool]);
        assert_eq!((empty.status, empty.text.lines().count()), (0, 2), "{}", empty.text);
        assert!(empty.note.starts_with("no key"), "{}", empty.note);
        text(&["put", &pool, "7", "100"]);
        let before = std::fs::read(&pool).expect("is there");
        let lines = text(&["bench", &pool]);
        assert_eq!(std::fs::read(&pool).expect("is there"), before);
        let mut lines = lines.lines();
        assert!(lines.next().is_some_and(|line| line.ends_with(": 1 key")));
        for what in ["empty batch", "get", "put", "scan", "ceiling"] {
            let line = lines.next().unwrap_or_default();
            let time = line.strip_prefix(what).and_then(|rest| rest.trim().parse::<f64>().ok());
            assert!(time.is_some_and(|time| (0.0..1e6).contains(&time)), "{what}: {line}");
        }
        assert_eq!(lines.next(), None);
    }

    #[test]
    fn a_refused_pool_is_not_timed() {
        let folder = Folder::new("bench-refused");
        std::fs::write(folder.file("p"), vec![0; 4 * 16_384]).expect("is written");
        let said = said(&["bench", &folder.file("p")]);
        assert_eq!((said.status, said.text.as_str()), (1, ""));
        assert!(said.note.contains("refused with 5"), "{}", said.note);
    }
}
