//! `report`: the papers' workloads on the book, as tables in Markdown and as charts in SVG.

use std::path::{Path, PathBuf};
use std::process::ExitCode;
use std::time::Instant;

use yokehour_host::output::note;
use yokehour_host::program::{self, tell, Stop};
use yokehour_host::report::{Section, SECTIONS, TIMES};

fn usage() -> String {
    let mut text = "usage: report [--plots DIR] [WORKLOAD ..]\n\n\
                    Prints all workloads but the last, or those named; progress goes to standard error.\n\
                    With --plots, a chart of each goes to DIR as W1.svg and so on.\n"
        .to_string();
    for section in SECTIONS {
        text.push_str(&format!("\n  {}  {}", section.name, section.title));
    }
    text
}

fn main() -> ExitCode {
    program::run("report", &usage(), |words| run(words.to_vec()))
}

fn run(mut words: Vec<String>) -> Result<(), Stop> {
    let plots = take_plots(&mut words)?;
    if let Some(word) = words.iter().find(|word| !SECTIONS.iter().any(|section| section.name == **word)) {
        return Err(Stop::wrong(format!("no workload {word:?} (report --help)")));
    }
    let wanted = |section: &&Section| match words.is_empty() {
        true => section.name != TIMES,
        false => words.iter().any(|word| word == section.name),
    };
    SECTIONS.iter().filter(wanted).try_for_each(|section| print(section, plots.as_deref()))
}

/// Takes `--plots DIR` out of the words, and makes the folder.
fn take_plots(words: &mut Vec<String>) -> Result<Option<PathBuf>, Stop> {
    let Some(at) = words.iter().position(|word| word == "--plots") else { return Ok(None) };
    if at + 1 == words.len() {
        return Err(Stop::wrong("--plots needs a folder (report --help)"));
    }
    let folder = PathBuf::from(words.remove(at + 1));
    words.remove(at);
    std::fs::create_dir_all(&folder).map_err(|error| Stop::wrong(format!("{}: {error}", folder.display())))?;
    Ok(Some(folder))
}

/// Runs one workload, prints its table and writes its chart.
fn print(section: &Section, plots: Option<&Path>) -> Result<(), Stop> {
    let start = Instant::now();
    let rows = section.rows().map_err(|why| Stop::no(format!("{}: {why}", section.name)))?;
    tell(&format!("{}\n", section.text(&rows)))?;
    if let (Some(folder), Some(picture)) = (plots, section.picture(&rows)) {
        let file = folder.join(format!("{}.svg", section.name));
        std::fs::write(&file, picture).map_err(|error| Stop::wrong(format!("{}: {error}", file.display())))?;
    }
    note(&format!("{} took {:.1} s\n", section.name, start.elapsed().as_secs_f64()));
    Ok(())
}
