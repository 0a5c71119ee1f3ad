//! `bench`: both books by turns, and what the proved one copies and how deep its stack goes, as tables in Markdown.

mod copies;

use std::process::ExitCode;

use yokehour_host::bench::{Section, Setup, SECTIONS};
use yokehour_host::output::note;
use yokehour_host::program::{self, tell, Stop};

/// Rounds where none are asked for: about 20 seconds on one core.
const ROUNDS: usize = 100;

fn usage() -> String {
    let mut text = format!(
        "usage: bench [--rounds N] [MEASUREMENT ..]\n\n\
         Prints all measurements, or those named; progress goes to standard error.\n\
         Times are the shortest of N rounds, {ROUNDS} if not given; build with --release.\n\
         Needs the proved book, which `tools/library` makes.\n"
    );
    for section in SECTIONS {
        text.push_str(&format!("\n  {:<8} {}", section.name, section.title));
    }
    text
}

fn main() -> ExitCode {
    program::run("bench", &usage(), |words| {
        let (rounds, sections) = parse(words).map_err(|why| Stop::wrong(format!("{why} (bench --help)")))?;
        run(rounds, &sections)
    })
}

/// The rounds and the measurements that are asked for.
fn parse(words: &[String]) -> Result<(usize, Vec<&'static Section>), String> {
    let mut rounds = ROUNDS;
    let mut named = Vec::new();
    let mut words = words.iter();
    while let Some(word) = words.next() {
        if word == "--rounds" {
            let number = words.next().and_then(|word| word.parse().ok()).filter(|&number| number > 0);
            rounds = number.ok_or("--rounds needs a number from 1")?;
        } else {
            let section = SECTIONS.iter().find(|section| section.name == word);
            named.push(section.ok_or_else(|| format!("no measurement is called {word:?}"))?);
        }
    }
    let all = || SECTIONS.iter().collect();
    Ok((rounds, if named.is_empty() { all() } else { named }))
}

fn run(rounds: usize, sections: &[&Section]) -> Result<(), Stop> {
    let setup = Setup { rounds, count_copies: copies::count, say: |line| note(&format!("bench: {line}\n")) };
    tell(&format!("{}\n\n", setup.preface().map_err(Stop::wrong)?))?;
    for section in sections {
        let text = section.text(&setup).map_err(|why| Stop::no(format!("{}: {why}", section.name)))?;
        tell(&format!("{text}\n"))?;
    }
    Ok(())
}
