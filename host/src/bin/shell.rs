//! `shell`: prepares pools, runs batches and serves queues, a line at a time.

use std::io::{self, BufRead};
use std::process::ExitCode;

use yokehour_host::books::{by_name, BOOK_NAMES};
use yokehour_host::output::Reader;
use yokehour_host::program::{self, tell, Stop};
use yokehour_host::shell::{Shell, LINES, QUIT};

fn main() -> ExitCode {
    program::run("shell", &usage(), run)
}

fn usage() -> String {
    format!(
        "usage: shell [--book NAME]\n\nReads lines from standard input and answers each. \
         NAME is one of: {BOOK_NAMES} (second if not given).\n\n{LINES}\n\n\
         A line's answer tells how it went; the exit status is 0 whatever the answers were."
    )
}

fn run(words: &[String]) -> Result<(), Stop> {
    let words: Vec<&str> = words.iter().map(String::as_str).collect();
    let book = match words[..] {
        [] => "second",
        ["--book", name] => name,
        ["--book"] => return Err(Stop::wrong(format!("--book needs one of: {BOOK_NAMES} (shell --help)"))),
        ["--book", _, other, ..] | [other, ..] => {
            return Err(Stop::wrong(format!("{other:?} is too much (shell --help)")));
        }
    };
    answer_lines(Shell::new(by_name(book).map_err(Stop::wrong)?))
}

/// Answers lines until they end, or one asks to, or nobody reads the answers any more.
fn answer_lines(mut shell: Shell) -> Result<(), Stop> {
    for line in io::stdin().lock().split(b'\n') {
        let line = line.map_err(|error| Stop::wrong(format!("standard input: {error}")))?;
        let answers = match std::str::from_utf8(&line) {
            Ok(line) if line.trim() == QUIT => break,
            Ok(line) => shell.answer(line),
            Err(_) => vec!["error the line is not UTF-8".to_string()],
        };
        let answers: String = answers.iter().map(|answer| format!("{answer}\n")).collect();
        if tell(&answers)? == Reader::Left {
            break;
        }
    }
    Ok(())
}
