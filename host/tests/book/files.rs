//! What `wallbook` does to files: the pool is safe from its own outputs, from a second process, from a killed one and
//! from being looked at.

use std::fs::{self, File};
use std::io::{BufRead, BufReader, Read};
use std::os::unix::fs::{symlink, FileTypeExt, MetadataExt};
use std::process::{Command, Stdio};
use std::thread;
use std::time::Duration;

use crate::programs::{must, noted, Folder, SOMEBODY};

#[test]
fn an_output_never_lands_on_the_pool() {
    let folder = Folder::with_pool("onto-itself");
    let before = folder.bytes("p");
    symlink("p", folder.path("link")).expect("a link");
    fs::hard_link(folder.path("p"), folder.path("hard")).expect("a second name");
    for verb in ["export p OUT --book second", "salvage p OUT", "picture p OUT"] {
        for out in ["p", "./p", "link", "hard"] {
            for force in ["", " --force"] {
                let line = verb.replace("OUT", out) + force;
                let (status, why) = folder.notes(&line);
                assert_eq!(status, Some(2), "{line}");
                assert!(why.contains(&format!("{out} is the file that is read")), "{line}: {why}");
                assert!(folder.bytes("p") == before && folder.bytes("hard") == before, "{line}");
            }
        }
    }
    assert_eq!(folder.names(), ["hard", "link", "p"]);
}

#[test]
fn what_is_said_never_lands_on_the_pool() {
    let folder = Folder::with_pool("said-onto-itself");
    let before = folder.bytes("p");
    for line in ["export p --book second", "export p /dev/stdout --book second", "put p 8 1 --book second", "show p"] {
        let pool = fs::OpenOptions::new().append(true).open(folder.path("p")).expect("is there");
        let (status, why) = noted(folder.command(line).stdout(pool).output().expect("runs"));
        assert!(status == Some(2) && why.contains("p is the file that is read"), "{line}: {why}");
        assert!(folder.bytes("p") == before, "{line}");
    }
}

#[test]
fn an_output_that_is_there_is_kept_unless_forced() {
    let folder = Folder::with_pool("kept");
    for (verb, holds) in
        [("export p OUT --book second", "7,100\n"), ("salvage p OUT", "7,100\n"), ("picture p OUT", "<svg")]
    {
        fs::write(folder.path("out"), "a letter").expect("is written");
        let line = verb.replace("OUT", "out");
        let (status, why) = folder.notes(&line);
        assert!(status == Some(2) && why.contains("out is there already; --force"), "{line}: {why}");
        assert_eq!(folder.bytes("out"), b"a letter", "{line}");
        assert_eq!(folder.status(&(line + " --force")), Some(0), "{verb}");
        assert!(folder.bytes("out").starts_with(holds.as_bytes()), "{verb}");
        assert_eq!(folder.status(&verb.replace("OUT", "fresh")), Some(0), "{verb}");
        assert!(folder.bytes("fresh") == folder.bytes("out"), "{verb}");
        fs::remove_file(folder.path("fresh")).expect("is there");
    }
    assert_eq!(folder.names(), ["out", "p"]);
}

#[test]
fn a_pipe_is_written_through() {
    let folder = Folder::with_pool("fifo");
    must("mkfifo", &["fifo"], &folder.path(""));
    let path = folder.path("fifo");
    let reader = thread::spawn(move || {
        let mut text = String::new();
        File::open(path).and_then(|mut fifo| fifo.read_to_string(&mut text)).map(|_| text)
    });
    assert_eq!(folder.status("export p fifo --book second"), Some(0));
    let about = fs::symlink_metadata(folder.path("fifo")).expect("is there");
    assert!(about.file_type().is_fifo(), "the name still leads to the pipe");
    assert_eq!(reader.join().expect("ends").expect("is read"), "7,100\n");
}

#[test]
fn a_device_is_written_through() {
    let folder = Folder::with_pool("device");
    let (status, why) = folder.notes("check /dev/zero --book second");
    assert!(status == Some(2) && why.contains("/dev/zero is longer than any pool"), "{why}");
    // Nodes of the test's own, the same devices as /dev/null and /dev/full; not everybody may make them.
    let made = [["null", "c", "1", "3"], ["full", "c", "1", "7"]].map(|words| folder.makes_node(&words));
    if made != [true, true] {
        return;
    }
    assert_eq!(folder.status("picture p null"), Some(0));
    let (status, why) = folder.notes("export p full --book second");
    assert!(status == Some(2) && why.contains("full: No space left"), "{why}");
    for name in ["null", "full"] {
        let about = fs::symlink_metadata(folder.path(name)).expect("is there");
        assert!(about.file_type().is_char_device(), "{name} is still a device");
    }
}

#[test]
fn standard_output_by_its_name_is_written_where_it_stands() {
    let folder = Folder::with_pool("stdout");
    symlink("/proc/self/fd/1", folder.path("out")).expect("a link");
    for out in ["out", "-"] {
        let line = format!("export p {out} --book second");
        assert_eq!(folder.says(&line), (Some(0), "7,100\n".to_string()), "{line}");
    }
    assert_eq!(folder.status("prepare - 4 --book second"), Some(0));
    assert_eq!(folder.bytes("-").len(), 65_536, "a pool goes to a file all the same");
    let mut file = File::create(folder.path("lines")).expect("is made");
    std::io::Write::write_all(&mut file, b"# before\n").expect("is written");
    let status = folder.command("export p out --book second").stdout(file).status().expect("runs");
    assert_eq!(status.code(), Some(0));
    assert_eq!(folder.bytes("lines"), b"# before\n7,100\n", "behind what was there, and without --force");
}

#[test]
fn a_read_only_pool_is_left_alone() {
    let folder = Folder::with_pool("read-only");
    fs::write(folder.path("csv"), "1,2\n").expect("is written");
    folder.set_mode("p", 0o444);
    let before = folder.bytes("p");
    for line in ["put p 8 1", "delete p 7", "run p -", "desk p -", "import p csv", "prepare p 4 --force"] {
        let (status, why) = folder.notes(&format!("{line} --book second"));
        assert!(status == Some(2) && why.contains("p is read-only (mode 0444)"), "{line}: {why}");
        assert!(folder.bytes("p") == before, "{line}");
    }
    fs::write(folder.path("q"), &before).expect("is written");
    let (status, why) = folder.notes("export q p --force --book second");
    assert!(status == Some(2) && why.contains("read-only"), "an output too: {why}");
    assert_eq!(folder.status("get p 7 --book second"), Some(0), "it can be looked at");
    assert_eq!(folder.status("put p 8 1 --dry --book second"), Some(0), "and tried");
    assert!(folder.bytes("p") == before);
}

#[test]
fn owner_and_mode_are_kept() {
    let folder = Folder::with_pool("owner");
    folder.set_mode("p", 0o640);
    folder.give_away("p");
    let about = |name| fs::metadata(folder.path(name)).map(|about| (about.uid(), about.gid(), about.mode()));
    let before = about("p").expect("is there");
    assert_eq!(folder.status("put p 8 1 --book second"), Some(0));
    assert_eq!(about("p").expect("is there"), before);
    assert_eq!(folder.says("get p 8 --book second"), (Some(0), "key 8 has value 1\ncharge 3\n".to_string()));
    assert_eq!(before.0, if folder.of_root() { SOMEBODY } else { before.0 });
}

#[test]
fn a_file_of_another_user_stays_theirs() {
    let folder = Folder::with_pool("theirs");
    if !folder.of_root() || !folder.is_open_to_somebody() {
        return;
    }
    folder.set_mode("", 0o777);
    folder.set_mode("p", 0o666);
    let before = folder.bytes("p");
    let (status, why) = noted(folder.as_somebody("put p 8 1 --book second"));
    assert!(status == Some(2) && why.contains("cannot belong to user 0 and group 0"), "{why}");
    assert!(folder.bytes("p") == before);
    assert_eq!(fs::metadata(folder.path("p")).expect("is there").uid(), 0);
    assert_eq!(folder.names(), ["p"]);
}

#[test]
fn two_processes_with_200_puts_each_lose_none() {
    let folder = Folder::new("two");
    assert_eq!(folder.status("prepare p 16 --book second"), Some(0));
    let put = |key: u32| {
        let (status, text) = folder.says(&format!("put p {key} {} --book second", key + 1));
        assert_eq!(status, Some(0));
        assert!(text.starts_with(&format!("key {key} is new, with value {}\n", key + 1)), "{text}");
    };
    thread::scope(|both| {
        both.spawn(|| (1..=200).for_each(put));
        both.spawn(|| (1001..=1200).for_each(put));
    });
    let line = |key: u32| format!("{key},{}\n", key + 1);
    let all: String = (1..=200).chain(1001..=1200).map(line).collect();
    assert_eq!(folder.says("export p --book second"), (Some(0), all));
    assert_eq!(folder.names(), ["p"], "no lock and no new file is left");
}

#[test]
fn the_second_process_waits_and_says_so() {
    let folder = Folder::with_pool("waits");
    for (line, then) in [("put p 8 1 --book second", "key 8 is new"), ("get p 7 --book second", "key 7 has value 100")]
    {
        let pool = File::open(folder.path("p")).expect("is there");
        pool.lock().expect("is locked");
        let mut child = folder.command(line).stdout(Stdio::piped()).stderr(Stdio::piped()).spawn().expect("runs");
        let mut said = String::new();
        BufReader::new(child.stderr.take().expect("is piped")).read_line(&mut said).expect("is read");
        assert_eq!(said, "waiting for p, which another process has locked\n", "{line}");
        assert!(child.try_wait().expect("is asked").is_none(), "{line}: it waits on");
        drop(pool);
        let output = child.wait_with_output().expect("ends");
        assert_eq!(output.status.code(), Some(0), "{line}");
        assert!(String::from_utf8_lossy(&output.stdout).starts_with(then), "{line}");
    }
}

#[test]
fn a_pool_that_was_replaced_while_one_waited_is_read_anew() {
    let folder = Folder::with_pool("replaced");
    let old = File::open(folder.path("p")).expect("is there");
    old.lock().expect("is locked");
    let mut child = folder.command("put p 8 1 --book second").stderr(Stdio::piped()).spawn().expect("runs");
    let mut said = String::new();
    BufReader::new(child.stderr.take().expect("is piped")).read_line(&mut said).expect("is read");
    assert!(said.starts_with("waiting for p"), "{said}");
    // What another process would do under its lock: key 9 in a copy, and the copy in the pool's place.
    fs::copy(folder.path("p"), folder.path("q")).expect("is copied");
    assert_eq!(folder.status("put q 9 1 --book second"), Some(0));
    fs::rename(folder.path("q"), folder.path("p")).expect("is renamed");
    drop(old);
    assert!(child.wait().expect("ends").success());
    assert_eq!(folder.says("export p --book second").1, "7,100\n8,1\n9,1\n");
}

#[test]
fn looking_leaves_the_file_alone() {
    let folder = Folder::with_pool("looking");
    let before = (folder.bytes("p"), fs::metadata(folder.path("p")).expect("is there").ino());
    let calls = ["get p 7", "scan p 0 9", "ceiling p 3", "check p", "export p", "bench p"];
    let calls = calls.map(|line| format!("{line} --book second"));
    let plain = ["stats p", "show p", "page p 0", "node p", "node p 0", "diff p p", "salvage p", "picture p out"];
    for line in calls.iter().map(String::as_str).chain(plain) {
        assert_eq!(folder.status(line), Some(0), "{line}");
        let after = (folder.bytes("p"), fs::metadata(folder.path("p")).expect("is there").ino());
        assert!(after == before, "{line}");
    }
    for line in ["get p 7", "scan p 0 9", "ceiling p 3"] {
        let before = folder.bytes("p");
        let looked = folder.says(&format!("{line} --book second"));
        assert_eq!(folder.says(&format!("{line} --charge --book second")), looked, "{line}");
        assert!(folder.bytes("p") != before, "{line} --charge");
    }
}

#[test]
fn what_cannot_be_written_can_be_looked_at() {
    let folder = Folder::with_pool("locked-folder");
    if !folder.is_open_to_somebody() {
        return;
    }
    folder.set_mode("p", 0o444);
    folder.set_mode("", 0o555);
    let text = |line: &str| {
        let output = folder.as_somebody(line);
        (output.status.code(), String::from_utf8(output.stdout).expect("is text"))
    };
    assert_eq!(text("get p 7 --book second"), (Some(0), "key 7 has value 100\ncharge 3\n".to_string()));
    assert_eq!(text("scan p 0 9 --book second"), (Some(0), "7,100\n".to_string()));
    assert_eq!(text("ceiling p 3 --book second").0, Some(0));
    let (status, why) = noted(folder.as_somebody("export p out --book second"));
    assert!(status == Some(2) && why.contains("out: no new file can be made beside it"), "{why}");
    folder.set_mode("", 0o755);
}

#[test]
fn leftovers_of_the_dead_are_cleared_and_those_of_the_living_stay() {
    let folder = Folder::with_pool("leftovers");
    let mut child = Command::new("true").spawn().expect("runs");
    let (dead, living) = (child.id(), std::process::id());
    child.wait().expect("ends");
    for (name, process) in [("p", dead), ("p", living), ("out", dead), ("other", dead)] {
        fs::write(folder.path(&format!(".{name}.{process}.new")), "half").expect("is written");
    }
    // Killed, and nobody has asked for it yet.
    let mut killed = Command::new("sleep").arg("60").spawn().expect("runs");
    killed.kill().expect("is killed");
    let stat = format!("/proc/{}/stat", killed.id());
    while fs::read_to_string(&stat).is_ok_and(|stat| !stat.contains(") Z ")) {
        thread::yield_now();
    }
    fs::write(folder.path(&format!(".p.{}.new", killed.id())), "half").expect("is written");
    fs::write(folder.path(".p.notes.new"), "a letter").expect("is written");
    assert_eq!(folder.status("get p 7 --book second"), Some(0));
    assert_eq!(folder.names().len(), 7, "looking clears nothing");
    assert_eq!(folder.status("put p 8 1 --book second"), Some(0));
    assert_eq!(folder.status("export p out --book second"), Some(0));
    let left = [format!(".other.{dead}.new"), format!(".p.{living}.new")];
    assert_eq!(folder.names(), [&left[0], &left[1], ".p.notes.new", "out", "p"]);
    killed.wait().expect("ends");
}

#[test]
fn a_process_that_is_killed_leaves_a_pool_that_opens() {
    let folder = Folder::with_pool("killed");
    for round in 0..60 {
        let mut child = folder.command(&format!("put p {round} 1 --book second"));
        let mut child = child.stdout(Stdio::null()).spawn().expect("runs");
        thread::sleep(Duration::from_micros(400 * round));
        child.kill().expect("is killed, or has ended");
        child.wait().expect("ends");
        assert_eq!(folder.status("check p --book second"), Some(0), "round {round}");
    }
    assert_eq!(folder.status("put p 99 1 --book second"), Some(0));
    assert_eq!(folder.names(), ["p"], "what was left is cleared");
}

#[test]
fn two_prepares_make_one_pool() {
    let folder = Folder::new("prepares");
    let made: Vec<Option<i32>> = thread::scope(|all| {
        let runs: Vec<_> = (0..8).map(|_| all.spawn(|| folder.status("prepare p 4 --book second"))).collect();
        runs.into_iter().map(|run| run.join().expect("ends")).collect()
    });
    assert_eq!(made.iter().filter(|status| **status == Some(0)).count(), 1, "{made:?}");
    assert_eq!(made.iter().filter(|status| **status == Some(2)).count(), 7, "{made:?}");
    assert_eq!(folder.names(), ["p"]);
}
