//! All programs and tools alike: `--help`, `--version`, what an exit status means, and no fall over words that are not
//! text or a place where nothing can be written.

use std::ffi::OsStr;
use std::fs::{self, File};
use std::io::Write;
use std::os::unix::ffi::OsStrExt;
use std::path::Path;
use std::process::{Command, Output, Stdio};

use yokehour_host::books::by_name;
use yokehour_host::program::STATUS;

use crate::programs::{noted, Folder};

const PROGRAMS: [(&str, &str); 5] = [
    ("wallbook", env!("CARGO_BIN_EXE_wallbook")),
    ("shell", env!("CARGO_BIN_EXE_shell")),
    ("fuzz", env!("CARGO_BIN_EXE_fuzz")),
    ("report", env!("CARGO_BIN_EXE_report")),
    ("bench", env!("CARGO_BIN_EXE_bench")),
];

/// A program that has nothing to read.
fn run(program: &str, word: impl AsRef<OsStr>) -> Output {
    Command::new(program).arg(word).stdin(Stdio::null()).output().expect("runs")
}

/// A place where nothing can be written.
fn full() -> File {
    fs::OpenOptions::new().write(true).open("/dev/full").expect("is there")
}

#[test]
fn help_and_version() {
    for (name, program) in PROGRAMS {
        let help = run(program, "--help");
        assert_eq!(help.status.code(), Some(0), "{name}");
        let help = String::from_utf8(help.stdout).expect("is text");
        assert!(help.starts_with(&format!("usage: {name} ")) && help.ends_with(STATUS), "{help}");
        let version = run(program, "--version");
        assert_eq!(version.status.code(), Some(0), "{name}");
        let books =
            if by_name("proved").is_ok() { "the proved book and the second one" } else { "the second book alone" };
        let line = format!("{name} {} with {books}\n", env!("CARGO_PKG_VERSION"));
        assert_eq!(String::from_utf8_lossy(&version.stdout), line);
    }
}

#[test]
fn what_is_not_understood_or_cannot_be_used_has_status_2() {
    for (name, program) in PROGRAMS {
        let none = Path::new("--nonsense").as_os_str();
        for word in [none, OsStr::from_bytes(b"\xff\xfe")] {
            let (status, said) = noted(run(program, word));
            assert_eq!(status, Some(2), "{name} {word:?}: {said}");
            assert!(said.starts_with(&format!("{name}: ")) && !said.contains("panicked"), "{said}");
        }
        let mut command = Command::new(program);
        let untold = command.arg("--help").stdout(full()).output().expect("runs");
        let (status, said) = noted(untold);
        assert_eq!((status, said.starts_with(&format!("{name}: standard output: "))), (Some(2), true), "{said}");
        let mut command = Command::new(program);
        assert_eq!(command.arg("--nonsense").stderr(full()).status().expect("runs").code(), Some(2), "{name}");
    }
    if by_name("proved").is_err() {
        assert_eq!(run(env!("CARGO_BIN_EXE_bench"), "stack").status.code(), Some(2), "a book that is not there");
    }
}

#[test]
fn a_note_that_cannot_be_told_changes_no_status() {
    let folder = Folder::with_pool("untold");
    for (line, status) in [("get p 7", 0), ("get p 8", 1), ("scan p 0 9", 0), ("salvage p", 0)] {
        let line = if line.starts_with("salvage") { line.to_string() } else { format!("{line} --book second") };
        let ended = folder.command(&line).stderr(full()).status().expect("runs");
        assert_eq!(ended.code(), Some(status), "{line}");
        let ended = folder.command(&line).stdout(full()).output().expect("runs");
        assert_eq!(ended.status.code(), Some(2), "{line}");
    }
}

#[test]
fn the_shell_tells_its_lines_and_ends_when_asked() {
    let mut program = Command::new(env!("CARGO_BIN_EXE_shell"));
    let mut child = program.stdin(Stdio::piped()).stdout(Stdio::piped()).spawn().expect("runs");
    let lines = b"help\n\xff\xfe\nprepare 4 3 1 2 1 4 4 3 2\r\n quit \nprepare 4 3 1 2 1 4 4 3 2\n";
    child.stdin.take().expect("is piped").write_all(lines).expect("is read");
    let output = child.wait_with_output().expect("ends");
    let text = String::from_utf8(output.stdout).expect("is text");
    assert_eq!(output.status.code(), Some(0));
    for line in ["  save [--force] FILE ", "  help  ", "  quit  "] {
        assert!(text.contains(line), "{text}");
    }
    let last: Vec<&str> = text.lines().rev().take(2).collect();
    assert_eq!(last, ["number 0 pool e5938a6f1717e51f", "error the line is not UTF-8"], "and nothing behind quit");
}

/// A repository that has nothing but a promise and an edit that begins with a line.
fn repository(name: &str, line: &str) -> Folder {
    let folder = Folder::new(name);
    for place in ["tools", "docs", "crates/tree/must-fail"] {
        fs::create_dir_all(folder.path(place)).expect("a folder");
    }
    fs::write(folder.path("docs/PROMISES.md"), "## Document 02, P4: a smaller tag table\n").expect("is written");
    fs::write(folder.path("crates/tree/must-fail/wrong.edit"), format!("{line}\n")).expect("is written");
    folder
}

/// Leaves the log of a gate that says something of the edit.
fn said_of_it(folder: &Folder, said: &str) {
    fs::create_dir_all(folder.path("target")).expect("a folder");
    let line = format!("rt: must-fail tree/wrong.edit: {said}\n");
    fs::write(folder.path("target/ci.log"), line).expect("is written");
}

/// Leaves the log of a gate in which the edit was refused for a fact.
fn refused(folder: &Folder) {
    said_of_it(folder, "refused, as it must be: src/tree.rt:1:1: error: 1 is not 2");
}

/// Runs a copy of a tool in a repository.
fn tool(folder: &Folder, name: &str, words: &[&str]) -> (Option<i32>, String, String) {
    let source = Path::new(env!("CARGO_MANIFEST_DIR")).join("../tools").join(name);
    let copy = folder.path("tools").join(name);
    fs::copy(source, &copy).expect("is copied");
    let output = Command::new("sh").arg("-c").arg("exec \"$0\" \"$@\"").arg(copy).args(words).output().expect("runs");
    let text = String::from_utf8(output.stdout.clone()).expect("is text");
    let (status, said) = noted(output);
    (status, text, said)
}

#[test]
fn the_tools_help() {
    let folder = repository("tools", "# P4: a wrong tree");
    for name in ["guards", "contents", "believed", "library", "firmware", "firmware-trial"] {
        let (status, text, said) = tool(&folder, name, &["--help"]);
        assert_eq!((status, said.as_str()), (Some(0), ""), "{name}");
        assert!(text.contains(&format!("  tools/{name}")) && text.contains("Exit status: 0 "), "{text}");
        let (status, text, said) = tool(&folder, name, &["--nonsense"]);
        assert_eq!((status, text.as_str()), (Some(2), ""), "{name}");
        assert!(said.contains(&format!("tools/{name} --help")), "{said}");
    }
}

#[test]
fn guards_without_a_gate_say_so() {
    let folder = repository("guards", "# P4: a wrong tree");
    for words in [&[][..], &["--list"]] {
        let (status, text, said) = tool(&folder, "guards", words);
        assert_eq!((status, text.as_str()), (Some(2), ""), "{words:?}");
        assert_eq!(said, "guards: no gate has left its log in target/ci.log; .ci/run makes it\n");
    }
    refused(&folder);
    let (status, text, _) = tool(&folder, "guards", &[]);
    assert_eq!(
        (status, text.as_str()),
        (Some(0), "guards: 1 edits, 0 of them without a promise or not refused for a fact\n")
    );
}

#[test]
fn guards_name_a_promise() {
    for line in ["# a wrong tree", "# P5: a wrong tree"] {
        let folder = repository("unnamed", line);
        refused(&folder);
        let (status, text, _) = tool(&folder, "guards", &[]);
        assert_eq!(status, Some(1), "{line}");
        assert!(text.starts_with("guards: tree/wrong names no promise of docs/PROMISES.md: "), "{text}");
    }
}

#[test]
fn guards_ask_for_a_fact() {
    let beyond = [
        "refused, as it must be",
        "refused, as it must be (only because a proof file names what the edit took away): proofs/a.antt:1:1: error: b",
        "refused, as it must be (only by a limit of the prover): src/tree.rt:1:1: error: c",
        "NOT REFUSED: the crate is still proved with this edit",
        "BAD EDIT: it changes nothing",
    ];
    for said in beyond {
        let folder = repository("beyond", "# P4: a wrong tree");
        said_of_it(&folder, said);
        let (status, text, _) = tool(&folder, "guards", &[]);
        assert_eq!(status, Some(1), "{said}");
        assert!(text.starts_with("guards: tree/wrong ") && text.contains(said), "{text}");
    }
}
