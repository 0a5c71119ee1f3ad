//! `wallbook`: the book for a person.

use std::process::ExitCode;

use yokehour_host::output::note;
use yokehour_host::program::{ended, tell, words};
use yokehour_host::tool;

fn main() -> ExitCode {
    let said = match words() {
        Ok(words) => tool::run(&words),
        Err(stop) => return ended("wallbook", &stop),
    };
    let told = tell(&said.text);
    note(&said.note);
    match told {
        Ok(_) => ExitCode::from(said.status),
        Err(stop) => ended("wallbook", &stop),
    }
}
