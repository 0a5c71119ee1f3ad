//! The programs as a shell calls them: what `wallbook` prints, and its exit status; readers that leave early.

use std::io::Write;
use std::process::{Command, Stdio};

use yokehour_host::books::by_name;

use crate::programs::Folder;

#[test]
fn exit_statuses_tell_scripts_how_it_went() {
    let folder = Folder::new("statuses");
    assert_eq!(folder.says("prepare p 4 --book second").0, Some(0));
    let put = "key 7 is new, with value 100\ncharge 4\n".to_string();
    assert_eq!(folder.says("put p 7 100 --book second"), (Some(0), put));
    assert_eq!(folder.status("get p 7 --book second"), Some(0));
    assert_eq!(folder.status("get p 8 --book second"), Some(1), "an absent key");
    assert_eq!(folder.status("ceiling p 8 --book second"), Some(1), "no key at or above");
    assert_eq!(folder.status("run p 05 --book second"), Some(1), "a refused batch");
    assert_eq!(folder.status("desk p - 05000100 --book second"), Some(1), "a queue that names a panel");
    assert_eq!(folder.status("desk p - 01000400000007 --dry --book second"), Some(0));
    assert_eq!(folder.status("get p --book second"), Some(2), "a word too few");
    assert_eq!(folder.status("get q 7 --book second"), Some(2), "no such file");
    assert_eq!(folder.status("help"), Some(0));
    assert_eq!(folder.status("nonsense"), Some(2));
    std::fs::copy(folder.path("p"), folder.path("q")).expect("is copied");
    assert_eq!((folder.status("check q --book second"), folder.status("diff p q")), (Some(0), Some(0)));
    let mut bytes = std::fs::read(folder.path("q")).expect("is there");
    bytes[100] = 0;
    std::fs::write(folder.path("q"), bytes).expect("is written");
    assert_eq!((folder.status("check q --book second"), folder.status("diff p q")), (Some(1), Some(1)));
    assert_eq!((folder.status("salvage p"), folder.status("salvage q")), (Some(0), Some(1)));
    assert_eq!(folder.status("check r --book second"), Some(2), "no such file");
}

#[test]
fn a_ceiling_is_told_in_words() {
    let folder = Folder::new("ceiling");
    folder.status("prepare p 4 --book second");
    folder.status("put p 7 100 --book second");
    folder.status("put p 9 200 --book second");
    let says = |key: u32| folder.says(&format!("ceiling p {key} --dry --book second"));
    assert_eq!(says(7), (Some(0), "key 7 has value 100\ncharge 3\n".to_string()));
    assert_eq!(says(8), (Some(0), "key 9 has value 200, the nearest above 8\ncharge 3\n".to_string()));
    assert_eq!(says(10), (Some(1), "no key is at or above 10\ncharge 3\n".to_string()));
    assert_eq!(says(0).1, "key 7 has value 100, the nearest above 0\ncharge 3\n");
    assert_eq!(folder.status("ceiling p --book second"), Some(2), "a word too few");
}

#[test]
fn the_proved_book_does_the_work_where_it_is_here() {
    let folder = Folder::new("proved");
    let (status, said) = folder.notes("prepare p 4");
    assert_eq!(status, Some(0));
    if by_name("proved").is_err() {
        assert!(said.starts_with("wallbook: the second book does the work: this build has no proved book"), "{said}");
        assert_eq!((said.lines().count(), folder.status("get p 7")), (1, Some(1)));
        let (status, said) = folder.notes("get p 7 --book proved");
        assert!(status == Some(2) && said.contains("no proved book") && said.contains("--book second"), "{said}");
        return;
    }
    assert_eq!(said, "");
    folder.status("prepare q 4 --book second");
    let csv: String = (0..200).map(|key| format!("{},{key}\n", key * 7919 % 1000)).collect();
    std::fs::write(folder.path("csv"), csv).expect("is written");
    let by_panels = "run FILE 05000103010004000000070500010f03000400000007";
    let queues = "desk FILE 0100040000000703000400000007 - 0200080000000700000064";
    let (first, none) = ("ceiling FILE 0", "ceiling FILE 1000");
    let calls = ["get FILE 7", "delete FILE 21", "scan FILE 0 500", first, none, by_panels, queues];
    for line in ["import FILE csv"].into_iter().chain(calls) {
        let proved = folder.says(&line.replace("FILE", "p"));
        let second = folder.says(&format!("{} --book second", line.replace("FILE", "q")));
        assert_eq!(proved, second, "{line}");
    }
    assert_eq!(folder.says("diff p q"), (Some(0), "no byte differs\n".to_string()));
    assert_eq!(folder.says("check p").0, Some(0));
}

#[test]
fn a_reader_that_leaves_early_is_no_error() {
    let folder = Folder::new("pipe");
    folder.status("prepare p 64 --book second");
    let csv: String = (0..6000).map(|key| format!("{key},{key}\n")).collect();
    std::fs::write(folder.path("csv"), csv).expect("is written");
    assert_eq!(folder.status("import p csv --book second"), Some(0));
    let mut program = Command::new(env!("CARGO_BIN_EXE_wallbook"));
    let program = program.args(["salvage", "p"]).current_dir(folder.path("")).stdout(Stdio::piped());
    let mut child = program.spawn().expect("runs");
    drop(child.stdout.take());
    assert_eq!(child.wait().expect("ends").code(), Some(0));
}

/// The exit status of a program that nobody reads, and what it says on standard error.
fn unread(program: &str, words: &[&str], input: &str) -> (Option<i32>, String) {
    let (reader, writer) = std::io::pipe().expect("a pipe");
    drop(reader);
    let mut program = Command::new(program);
    program.args(words).stdin(Stdio::piped()).stdout(writer).stderr(Stdio::piped());
    let mut child = program.spawn().expect("runs");
    // It may have ended already.
    let _ = child.stdin.take().expect("is piped").write_all(input.as_bytes());
    let output = child.wait_with_output().expect("ends");
    (output.status.code(), String::from_utf8(output.stderr).expect("is text"))
}

#[test]
fn programs_that_nobody_reads_end_quietly() {
    let quietly = (Some(0), String::new());
    let shell = env!("CARGO_BIN_EXE_shell");
    assert_eq!(unread(shell, &[], "prepare 4 3 1 2 1 4 4 3 2\nspell\n"), quietly);
    let programs = [
        shell,
        env!("CARGO_BIN_EXE_wallbook"),
        env!("CARGO_BIN_EXE_fuzz"),
        env!("CARGO_BIN_EXE_report"),
        env!("CARGO_BIN_EXE_bench"),
    ];
    for program in programs {
        assert_eq!(unread(program, &["--help"], ""), quietly, "{program}");
    }
}
