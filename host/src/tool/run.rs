//! `run`: a batch, in words or as bytes.

use super::ledger::Ledger;
use super::pool::{Pool, CALL_OPTIONS_FROM};
use super::words::{Options, Words};
use super::{answer, file, lines, Said, Stop, Verb};
use crate::command::{answer_room, parse};
use crate::input::Input;
use crate::layout::PANELS;

pub(super) const VERB: Verb = Verb {
    name: "run",
    words: "FILE COMMAND ..",
    about: "runs commands as one batch, and says each answer",
    more: "Such as: wallbook run FILE put 7 100 get 7. The empty batch, which is -, writes a checkpoint.\n\
           Exit status 1 if the batch is refused; the answers in a batch that is not are told as they are. Where a\n\
           panel besides 0 is charged, a line for each panel that is tells its part of the charge.",
    options: CALL_OPTIONS_FROM,
    run,
};

fn run(words: &mut Words<'_>, options: &Options) -> Result<Said, Stop> {
    let file = words.word("a file")?;
    let batch = match &options.from {
        Some(source) => {
            words.end()?;
            let wrong = |why| Stop::wrong(format!("{source}: {why}"));
            lines::batch(&file::read_text(source)?).map_err(wrong)?
        }
        None if !words.any_left() => return Err(Stop::wrong("a command expected, or - for none")),
        None => lines::batch(&words.rest().join(" ")).map_err(Stop::wrong)?,
    };
    let mut pool = Pool::open(file, options)?;
    let ledger = Ledger::of(options)?;
    // A batch that cannot be read goes to the book all the same: the refusal is its own.
    let commands = parse(&batch).unwrap_or_default();
    let answers = pool.call(&Input::Batch(batch), answer_room(&commands))?;
    pool.save()?;
    ledger.note(file, "batch", &pool.charges)?;
    let answered = commands.iter().filter(|command| command.is_answered());
    let mut text: String =
        answered.zip(&answers).map(|(command, said)| answer::spoken(command, said).0 + "\n").collect();
    text.push_str(&format!("charge {}\n", pool.charge()));
    if pool.charges[1..].iter().any(|&charge| charge > 0) {
        text.push_str(&by_panel(&pool.charges));
    }
    Ok(Said::text(text))
}

/// A line for each panel that is charged.
pub(super) fn by_panel(charges: &[u64; PANELS]) -> String {
    let charged = charges.iter().enumerate().filter(|(_, &charge)| charge > 0);
    charged.map(|(panel, charge)| format!("panel {panel}: charge {charge}\n")).collect()
}

#[cfg(test)]
mod tests {
    use crate::tool::trial::{said, text, Folder};

    /// Put 7 with 100, get, delete and get 7, in words.
    const WORKED: &str = "key 7 is new, with value 100\nkey 7 has value 100\nkey 7 is deleted, its value was 100\n\
                          key 7 is not there\ncharge 14\n";

    #[test]
    fn the_worked_batch_in_words() {
        let folder = Folder::new("run");
        let pool = folder.prepared("p");
        let batch = "0200080000000700000064010004000000070300040000000701000400000007";
        assert_eq!(text(&["run", &pool, batch]), WORKED);
        assert_eq!(text(&["run", &pool, "04000a00000009000000030001"]), "keys 9 to 3: none\ncharge 0\n");
        assert_eq!(text(&["run", &pool, "-"]), "charge 0\n");
        assert_eq!(text(&["run", &pool, "07000400000007"]), "no key is at or above 7\ncharge 4\n");
        let batch = ["02 0008 00000007 00000064 07000400000007", "07000400000003"];
        let words = "key 7 is new, with value 100\nkey 7 has value 100\nkey 7 has value 100, the nearest above 3\n";
        assert!(text(&["run", &pool, batch[0], batch[1]]).starts_with(words));
        let refused = said(&["run", &pool, "05"]);
        assert!(refused.status == 1 && refused.note.contains("refused with 3: the batch is over"), "{refused:?}");
        for (hex, why) in [("0x", "character 2 is none"), ("000", "3 digits are half a byte too many")] {
            let wrong = said(&["run", &pool, hex]);
            assert!(wrong.status == 2 && wrong.note.contains(why), "{wrong:?}");
        }
    }

    #[test]
    fn a_batch_of_three_panels_in_words() {
        let folder = Folder::new("run-panels");
        let pool = folder.prepared("p");
        // Panel 3 puts, panel 15 gets and deletes, panel 0 gets.
        let batch = "05000103 0200080000000700000064 0500010f 01000400000007 03000400000007 05000100 01000400000007";
        let by_panel = "panel 0: charge 3\npanel 3: charge 4\npanel 15: charge 7\n";
        assert_eq!(text(&["run", &pool, &batch.replace(' ', "")]), [WORKED, by_panel].concat());
        let words = "panel 3 put 7 100 panel 15 get 7 delete 7 panel 0 get 7";
        let line: Vec<&str> = ["run", &pool, "--dry"].into_iter().chain(words.split(' ')).collect();
        assert!(text(&line).starts_with("key 7 is new, with value 100\n"));
        let lines = folder.file("lines");
        std::fs::write(&lines, words.replace(" p", "\np")).expect("is written");
        assert_eq!(text(&["run", &pool, "--from", &lines, "--dry"]), text(&line));
        std::fs::write(&lines, "get 7\nget seven\n").expect("is written");
        let wrong = said(&["run", &pool, "--from", &lines]);
        assert!(wrong.status == 2 && wrong.note.contains("lines: line 2: get: a key expected"), "{wrong:?}");
        assert_eq!(text(&["run", &pool, "05000107"]), "charge 0\n");
        assert_eq!(text(&["run", &pool, "0500010001000400000007"]), "key 7 is not there\ncharge 4\n");
    }
}
