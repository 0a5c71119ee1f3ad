//! `import`: puts the pairs of a text file.

use super::pool::{Pool, CALL_OPTIONS};
use super::progress::Progress;
use super::words::{counted, Options, Words};
use super::{answer, csv, file, Said, Stop, Verb};
use crate::command::{Answer, Command};
use crate::layout::MAX_BATCH_BYTES;
use crate::node::Pair;
use crate::wire::{FIELD_HEAD, PAIR_BYTES};

pub(super) const VERB: Verb = Verb {
    name: "import",
    words: "FILE CSV",
    about: "puts the key,value lines of a file, or of standard input for -",
    more: "All or nothing: where a line is wrong, or a put is refused, the pool is left as it was, and the line is\n\
           named. Between key and value stands a comma, a semicolon or a tab; either may be in quotes. What stands\n\
           behind # on a line is a remark, and a first line of two words is a heading, which is said.",
    options: CALL_OPTIONS,
    run,
};

/// Puts of one batch: as many as its bytes hold.
pub(super) const BATCH_PUTS: usize = MAX_BATCH_BYTES / (FIELD_HEAD + PAIR_BYTES);

fn run(words: &mut Words<'_>, options: &Options) -> Result<Said, Stop> {
    let (file, source) = (words.word("a file")?, words.word("a file of key,value lines")?);
    words.end()?;
    let wrong = |error| Stop::wrong(format!("{source}: {error}"));
    // Before the pool is locked: standard input may come from somebody who types.
    let csv::Table { pairs, heading } = csv::parse(&file::read_text(source)?).map_err(wrong)?;
    let mut pool = Pool::open(file, options)?;
    let mut new = 0;
    let mut progress = Progress::new("lines put");
    for (turn, chunk) in pairs.chunks(BATCH_PUTS).enumerate() {
        new += put(&mut pool, source, chunk)?;
        progress.tell(turn * BATCH_PUTS + chunk.len());
    }
    pool.save()?;
    let counts = format!("{} put: {new} new, {} replaced", counted(pairs.len(), "pair"), pairs.len() - new);
    let note = heading.map(|line| format!("{source}: line {line} is taken for a heading\n")).unwrap_or_default();
    Ok(Said { text: format!("{counts}\ncharge {}\n", pool.charge()), note, status: 0 })
}

/// Puts lines as one batch, and gives how many keys were new.
fn put(pool: &mut Pool<'_>, source: &str, lines: &[(usize, Pair)]) -> Result<usize, Stop> {
    let command = |pair: &Pair| Command::Put { key: pair.key, value: pair.pointer };
    let commands: Vec<Command> = lines.iter().map(|(_, pair)| command(pair)).collect();
    let answers = pool.batch(&commands)?;
    for ((line, _), (command, answer)) in lines.iter().zip(commands.iter().zip(&answers)) {
        let (text, no) = answer::spoken(command, answer);
        if no {
            return Err(Stop::no(format!("{source}: line {line}: {text}; the pool is as it was")));
        }
    }
    Ok(answers.iter().filter(|answer| **answer == Answer::Absent).count())
}

#[cfg(test)]
mod tests {
    use crate::tool::trial::{said, text, Folder};

    #[test]
    fn what_is_imported_is_exported() {
        let folder = Folder::new("import");
        let (pool, csv, out) = (folder.file("p"), folder.file("in.csv"), folder.file("out.csv"));
        text(&["prepare", &pool, "64"]);
        // More than one batch of puts, in no order; ascending they come out.
        let pairs: Vec<(u32, u32)> = (0..5000u32).map(|at| (at.wrapping_mul(0x9E37_79B1), at)).collect();
        let lines =
            |pairs: &[(u32, u32)]| pairs.iter().map(|(key, value)| format!("{key},{value}\n")).collect::<String>();
        std::fs::write(&csv, lines(&pairs)).expect("is written");
        let counts = text(&["import", &pool, &csv]);
        assert!(counts.starts_with("5000 pairs put: 5000 new, 0 replaced\ncharge "), "{counts}");
        let mut sorted = pairs;
        sorted.sort();
        let before = std::fs::read(&pool).expect("is there");
        assert_eq!(text(&["export", &pool]), lines(&sorted));
        assert_eq!(text(&["export", &pool, &out]), "");
        assert_eq!(std::fs::read_to_string(&out).expect("is there"), lines(&sorted));
        assert_eq!(std::fs::read(&pool).expect("is there"), before, "an export leaves the pool");
        let again = text(&["import", &pool, &out]);
        assert!(again.starts_with("5000 pairs put: 0 new, 5000 replaced\n"), "{again}");
    }

    #[test]
    fn a_wrong_line_or_a_refused_put_changes_nothing() {
        let folder = Folder::new("no-import");
        let (pool, csv) = (folder.prepared("p"), folder.file("csv"));
        let before = std::fs::read(&pool).expect("is there");
        std::fs::write(&csv, "1,2\n3:4\n").expect("is written");
        let wrong = said(&["import", &pool, &csv]);
        assert_eq!(wrong.status, 2);
        assert!(wrong.note.contains("csv: line 2, column 4: a comma or a semicolon expected"), "{}", wrong.note);
        let many: String = (0..300).map(|key| format!("{key},0\n")).collect();
        std::fs::write(&csv, many).expect("is written");
        let refused = said(&["import", &pool, &csv]);
        assert_eq!(refused.status, 1);
        assert!(refused.note.contains("csv: line 241: key 240 is not put: refused with 9"), "{}", refused.note);
        assert_eq!(std::fs::read(&pool).expect("is there"), before);
    }

    #[test]
    fn a_heading_is_told() {
        let folder = Folder::new("heading");
        let (pool, csv) = (folder.prepared("p"), folder.file("csv"));
        std::fs::write(&csv, "\u{feff}\"route\";\"card\"\r\n\"7\";\"100\"\r\n").expect("is written");
        let imported = said(&["import", &pool, &csv]);
        assert!(imported.text.starts_with("1 pair put: 1 new, 0 replaced\n"), "{imported:?}");
        assert_eq!(imported.note, format!("{csv}: line 1 is taken for a heading\n"));
    }
}
