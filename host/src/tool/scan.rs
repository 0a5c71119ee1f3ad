//! `scan`: the pairs of a range of keys.

use super::pool::{Pool, LOOK_OPTIONS};
use super::progress::Progress;
use super::words::{counted, Options, Words};
use super::{csv, Said, Stop, Verb};
use crate::command::{Answer, Command};
use crate::layout::MAX_SCAN_PAIRS;
use crate::node::Pair;

pub(super) const VERB: Verb = Verb {
    name: "scan",
    words: "FILE LOW HIGH [MOST]",
    about: "the pairs with keys from LOW to HIGH, the first MOST of them",
    more: "Prints key,value lines. A scan command gives 32 pairs at most, so a longer list takes one for each 32;\n\
           all are one batch. The file is left as it is, and the charge is what the book would count.",
    options: LOOK_OPTIONS,
    run,
};

fn run(words: &mut Words<'_>, options: &Options) -> Result<Said, Stop> {
    let file = words.word("a file")?;
    let (low, high) = (words.number("a lowest key")?, words.number("a highest key")?);
    let most = words.number_if_any("how many pairs at most")?.map_or(usize::MAX, |most| most as usize);
    words.end()?;
    let mut pool = Pool::look_or_charge(file, options)?;
    let Scanned { pairs, commands } = scanned(&mut pool, low, high, most)?;
    if !commands.is_empty() {
        pool.batch(&commands)?;
        pool.save()?;
    }
    let note = format!("{}, charge {}\n", counted(pairs.len(), "pair"), pool.charge());
    Ok(Said { text: csv::lines(&pairs), note, status: 0 })
}

/// The pairs of a range, and the scans that give them.
pub(super) struct Scanned {
    pub pairs: Vec<Pair>,
    commands: Vec<Command>,
}

/// The first `most` pairs of a range, a scan after another, each on a copy: the pool stays as it is.
pub(super) fn scanned(pool: &mut Pool<'_>, mut low: u32, high: u32, most: usize) -> Result<Scanned, Stop> {
    let mut scanned = Scanned { pairs: Vec::new(), commands: Vec::new() };
    let mut progress = Progress::new("pairs read");
    while scanned.pairs.len() < most {
        let wanted = MAX_SCAN_PAIRS.min(most - scanned.pairs.len());
        let command = Command::Scan { low, high, most: wanted };
        let answers = pool.try_batch(&[command])?;
        let [Answer::Pairs(pairs)] = &answers[..] else {
            return Err(Stop::no("a scan was not answered with pairs"));
        };
        scanned.pairs.extend(pairs);
        scanned.commands.push(command);
        progress.tell(scanned.pairs.len());
        let next = pairs.last().filter(|_| pairs.len() == wanted).and_then(|pair| pair.key.checked_add(1));
        match next {
            Some(next) if next <= high => low = next,
            _ => break,
        }
    }
    Ok(scanned)
}

#[cfg(test)]
mod tests {
    use crate::tool::trial::{said, text, Folder};

    #[test]
    fn a_scan_pages_through_more_than_32_pairs() {
        let folder = Folder::new("scan");
        let pool = folder.prepared("p");
        let line = |key: u32| format!("{key},{}\n", key + 1);
        let keys = (0..100).chain([u32::MAX - 1]);
        std::fs::write(folder.file("csv"), keys.map(line).collect::<String>()).expect("is written");
        text(&["import", &pool, &folder.file("csv")]);
        let lines = |keys: std::ops::Range<u32>| keys.map(line).collect::<String>();
        assert_eq!(text(&["scan", &pool, "0", "99"]), lines(0..100));
        assert_eq!(text(&["scan", &pool, "0", "32"]), lines(0..33), "one more than a scan gives");
        assert_eq!(text(&["scan", &pool, "3", "98", "64"]), lines(3..67));
        assert_eq!(text(&["scan", &pool, "3", "98", "65"]), lines(3..68));
        assert_eq!(text(&["scan", &pool, "90", "0xffffffff"]), lines(90..100) + &line(u32::MAX - 1));
        for (low, high, most) in [("9", "3", "5"), ("200", "300", "5"), ("0", "9", "0")] {
            assert_eq!(text(&["scan", &pool, low, high, most]), "");
        }
        let before = std::fs::read(&pool).expect("is there");
        let looked = said(&["scan", &pool, "0", "31"]);
        assert_eq!(std::fs::read(&pool).expect("is there"), before);
        assert!(looked.note.starts_with("32 pairs, charge "), "{}", looked.note);
        assert_eq!(said(&["scan", &pool, "0", "31", "--charge", "--dry"]), looked);
        assert_eq!(std::fs::read(&pool).expect("is there"), before);
        assert_eq!(said(&["scan", &pool, "0", "31", "--charge"]), looked);
        assert_ne!(std::fs::read(&pool).expect("is there"), before, "the reads are counted");
    }
}
