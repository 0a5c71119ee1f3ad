//! `fuzz`: random cases for some seconds; a failure prints the seed that replays it.

use std::process::ExitCode;
use std::time::{Duration, Instant};

use yokehour_host::books::proved_to_compare;
use yokehour_host::fuzz::{case, Tally};
use yokehour_host::output::note;
use yokehour_host::program::{self, tell, Stop};
use yokehour_host::random::Random;

const USAGE: &str = "\
usage: fuzz SECONDS SEED   random cases for so long, with progress; then what was exercised
       fuzz --case SEED    the one case that a failure named

A case that fails is told with the seed that replays it; exit status 1.
Counts of zero are marked: what was never exercised is a hole.";

fn main() -> ExitCode {
    program::run("fuzz", USAGE, |words| {
        let words: Vec<&str> = words.iter().map(String::as_str).collect();
        match words[..] {
            ["--case", seed] => run_case(number(seed)?, &mut Tally::default()),
            [seconds, seed] => run(Duration::from_secs(number(seconds)?), number(seed)?),
            _ => Err(Stop::wrong("seconds and a seed expected (fuzz --help)")),
        }
    })
}

fn number(word: &str) -> Result<u64, Stop> {
    word.parse().map_err(|_| Stop::wrong(format!("a number expected, not {word:?} (fuzz --help)")))
}

/// Runs cases until the time is over.
fn run(time: Duration, seed: u64) -> Result<(), Stop> {
    // Said once before the first case, should the proved book be missing.
    proved_to_compare().map_err(Stop::wrong)?;
    let start = Instant::now();
    let mut told = start;
    let mut seeds = Random::new(seed);
    let mut tally = Tally::default();
    while start.elapsed() < time {
        run_case(seeds.next_u64(), &mut tally)?;
        if told.elapsed() >= Duration::from_secs(5) {
            told = Instant::now();
            let (seconds, desks) = (start.elapsed().as_secs(), tally.desks.accepted);
            let (cases, batches, states) = (tally.cases, tally.batches, tally.seen.states);
            note(&format!("{seconds:>4} s: {cases} cases, {batches} batches, {desks} desks, {states} states\n"));
        }
    }
    tell(&summary(&tally)).map(drop)
}

/// What was exercised, and that nothing failed.
fn summary(tally: &Tally) -> String {
    let mut text = String::new();
    for (name, count) in tally.lines() {
        text.push_str(&format!("{count:>10}  {name}{}\n", if count == 0 { "   <- never exercised" } else { "" }));
    }
    let (whole, thousandths) = (tally.worst_ratio / 1000, tally.worst_ratio % 1000);
    text.push_str(&format!("worst charge over optimum: {whole}.{thousandths:03}\n"));
    text.push_str(&format!("no failure in {} cases\n", tally.cases));
    text
}

/// Runs one case; a panic is a failure too.
fn run_case(seed: u64, tally: &mut Tally) -> Result<(), Stop> {
    let replay = format!("replay with: fuzz --case {seed}");
    let result = std::panic::catch_unwind(std::panic::AssertUnwindSafe(|| case(seed, tally)));
    match result {
        Ok(result) => result.map_err(|why| Stop::no(format!("{why}\n{replay}"))),
        Err(_) => Err(Stop::no(format!("a panic\n{replay}"))),
    }
}
