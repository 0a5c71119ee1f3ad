//! `salvage`: every pair that can still be read.

use super::remains::{remains, Found, Remains};
use super::words::{Options, Words};
use super::{dump, file, Said, Stop, Verb};

pub(super) const VERB: Verb = Verb {
    name: "salvage",
    words: "FILE [CSV]",
    about: "every pair that can still be read, from a refused pool too",
    more:
        "Prints key,value lines that import takes; a doubtful pair is a remark behind #, with the reason. A page that\n\
           one byte spoils is read with that byte mended, and its pairs are doubtful. A page that does not check is\n\
           taken to be as new as its sequence number says: a node that is older may have been changed on it.\n\
           The pool is not written, and a CSV that is there already is kept, unless --force is given.\n\
           Exit status 0 if nothing is doubtful, 1 if something is.",
    options: &["--all", "--force", "--spare", "--offset", "--swap"],
    run,
};

fn run(words: &mut Words<'_>, options: &Options) -> Result<Said, Stop> {
    let (name, target) = (words.word("a file")?, words.next());
    words.end()?;
    let remains = remains(&dump::read(name, options)?);
    let lines = lines(&remains, options.all);
    let (note, doubtful) = note(name, &remains);
    let status = u8::from(doubtful || !remains.notes.is_empty());
    match target {
        None => Ok(Said { text: lines, note, status }),
        Some(target) => {
            file::write(target, lines.as_bytes(), &[name], options.force)?;
            Ok(Said { note, status, ..Said::default() })
        }
    }
}

/// A line for each pair; doubtful ones are remarks, unless all are wanted: then the first of each key is none.
fn lines(remains: &Remains, all: bool) -> String {
    let mut out = String::new();
    for (key, found) in &remains.found {
        for (at, Found { value, doubt }) in found.iter().enumerate() {
            out.push_str(&match doubt {
                None => format!("{key},{value}\n"),
                Some(doubt) if all && at == 0 => format!("{key},{value} # {doubt}\n"),
                Some(doubt) => format!("# {key},{value} {doubt}\n"),
            });
        }
    }
    out
}

fn note(name: &str, remains: &Remains) -> (String, bool) {
    let mut note: String = remains.notes.iter().map(|note| format!("{note}\n")).collect();
    let (sure, doubtful) = remains.counts();
    note.push_str(&format!("{name}: {sure} pairs for sure, {doubtful} doubtful\n"));
    (note, doubtful > 0)
}

#[cfg(test)]
mod tests {
    use crate::tool::trial::{said, text, Folder};

    #[test]
    fn what_is_salvaged_can_be_imported() {
        let folder = Folder::new("salvage");
        let (pool, csv) = (folder.prepared("p"), folder.file("csv"));
        let pairs: String = (0..100).map(|key| format!("{key},{}\n", 2 * key)).collect();
        std::fs::write(&csv, &pairs).expect("is written");
        text(&["import", &pool, &csv]);
        assert_eq!(text(&["salvage", &pool]), pairs);
        let mut bytes = std::fs::read(&pool).expect("is there");
        let is_live = |line: &str| line.contains("live entry") && line.ends_with("put 40 -> 80");
        let page = (0..128).find(|page| text(&["page", &pool, &page.to_string()]).lines().any(is_live)).expect("one");
        bytes[page * 512 + 20] ^= 0x40;
        std::fs::write(&pool, &bytes).expect("is written");
        assert_eq!(said(&["export", &pool]).status, 1);
        let salvaged = said(&["salvage", &pool]);
        assert_eq!(salvaged.status, 1);
        assert!(salvaged.text.contains("# 40,80 on page "), "{}", salvaged.text);
        assert!(salvaged.note.contains(&format!("page {page} does not check")), "{}", salvaged.note);
        assert_eq!(said(&["salvage", &pool, &csv, "--all", "--force"]).status, 1);
        let fresh = folder.prepared("fresh");
        text(&["import", &fresh, &csv]);
        assert_eq!(text(&["export", &fresh]), pairs);
        assert_eq!(std::fs::read(&pool).expect("is there"), bytes, "the pool is not written");
    }

    #[test]
    fn bad_pages_in_a_row_are_one_line() {
        let folder = Folder::new("salvage-rows");
        let pool = folder.prepared("p");
        let mut bytes = std::fs::read(&pool).expect("is there");
        bytes[20 * 512..30 * 512].fill(0);
        bytes[40 * 512..41 * 512].fill(0);
        std::fs::write(&pool, &bytes).expect("is written");
        let note = said(&["salvage", &pool]).note;
        let why = "(byte 0: no sequence number first): no one byte mends it";
        assert!(note.contains(&format!("pages 20 to 29 do not check {why}\npage 40 does not check {why}\n")), "{note}");
    }
}
