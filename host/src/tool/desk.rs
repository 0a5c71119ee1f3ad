//! `desk`: queues, in words or as bytes, served a command of each in turn.

use super::ledger::Ledger;
use super::pool::{Pool, CALL_OPTIONS_FROM};
use super::run::by_panel;
use super::words::{Options, Words};
use super::{answer, file, lines, Said, Stop, Verb};
use crate::command::{answer_room, parse};
use crate::desk::{join, Queues};
use crate::input::Input;
use crate::reference;

pub(super) const VERB: Verb = Verb {
    name: "desk",
    words: "FILE QUEUE ..",
    about: "serves up to 16 queues of commands, a command of each in turn",
    more: "Such as: wallbook desk FILE 'put 7 100, get 7' - 'get 7'. The first QUEUE is panel 0's, the next panel\n\
           1's; - is an empty one. With --from, panel N says whose the commands behind it are. Each answer is told\n\
           with its panel, in the order of service; then the charge, and a line for each panel that has a part of\n\
           it. A queue may not name a panel itself (05). Exit status 1 if the call is refused.",
    options: CALL_OPTIONS_FROM,
    run,
};

fn run(words: &mut Words<'_>, options: &Options) -> Result<Said, Stop> {
    let file = words.word("a file")?;
    let queues = Queues::of(&given(words, options)?);
    let mut pool = Pool::open(file, options)?;
    let ledger = Ledger::of(options)?;
    // Queues that cannot be joined go to the book all the same: the refusal is its own.
    let joined = join(&queues.lengths, &queues.bytes).ok().and_then(|batch| parse(&batch)).unwrap_or_default();
    let answers = pool.call(&Input::Desk(queues), answer_room(&joined))?;
    pool.save()?;
    ledger.note(file, "desk", &pool.charges)?;
    let served = reference::by_panel(&joined).filter(|(_, command)| command.is_answered());
    let mut text: String = served
        .zip(&answers)
        .map(|((panel, command), said)| format!("panel {panel}: {}\n", answer::spoken(command, said).0))
        .collect();
    text.push_str(&format!("charge {}\n{}", pool.charge(), by_panel(&pool.charges)));
    Ok(Said::text(text))
}

/// The queues of a line, or of the file that it names.
fn given(words: &mut Words<'_>, options: &Options) -> Result<Vec<Vec<u8>>, Stop> {
    if let Some(source) = &options.from {
        words.end()?;
        let wrong = |why| Stop::wrong(format!("{source}: {why}"));
        return lines::queues(&file::read_text(source)?).map_err(wrong);
    }
    if !words.any_left() {
        return Err(Stop::wrong("a queue expected, or - for an empty one"));
    }
    words.rest().into_iter().map(|queue| lines::batch(queue).map_err(Stop::wrong)).collect()
}

#[cfg(test)]
mod tests {
    use crate::tool::trial::{said, text, Folder};

    /// A get of key 7.
    const GET: &str = "01000400000007";

    #[test]
    fn two_queues_in_words() {
        let folder = Folder::new("desk");
        let pool = folder.prepared("p");
        // Panel 0 puts and gets, panel 1 gets and deletes.
        let queues = ["020008000000070000006401000400000007", "0100040000000703000400000007"];
        let words = "panel 0: key 7 is new, with value 100\npanel 1: key 7 has value 100\n\
                     panel 0: key 7 has value 100\npanel 1: key 7 is deleted, its value was 100\n\
                     charge 18\npanel 0: charge 7\npanel 1: charge 11\n";
        assert_eq!(text(&["desk", &pool, queues[0], queues[1], "--dry"]), words);
        assert_eq!(text(&["desk", &pool, "put 7 100, get 7", "get 7; delete 7", "--dry"]), words);
        let file = folder.file("queues");
        std::fs::write(&file, "put 7 100\nget 7\npanel 1 # the other\nget 7\ndelete 7\n").expect("is written");
        assert_eq!(text(&["desk", &pool, "--from", &file, "--dry"]), words);
        assert_eq!(text(&["desk", &pool, queues[0], queues[1], "-", "-"]), words);
    }

    #[test]
    fn empty_queues_have_no_turn() {
        let folder = Folder::new("desk-empty");
        let pool = folder.prepared("p");
        let words = "panel 2: key 7 is not there\ncharge 3\npanel 2: charge 3\n";
        assert_eq!(text(&["desk", &pool, "-", "-", GET]), words);
        assert_eq!(text(&["desk", &pool, "-"]), "charge 0\n");
        let first = text(&["desk", &pool, GET]);
        assert_eq!(first, "panel 0: key 7 is not there\ncharge 3\npanel 0: charge 3\n");
    }

    #[test]
    fn a_refused_desk_leaves_the_file() {
        let folder = Folder::new("desk-refused");
        let pool = folder.prepared("p");
        let before = std::fs::read(&pool).expect("is there");
        let of_seventeen = [vec!["desk", &pool], vec![GET; 17]].concat();
        for (line, why) in [
            (&of_seventeen[..], "refused with 11: the lengths of the queues are over sixteen"),
            (
                &["desk", &pool, GET, "05000100"],
                "refused with 3: the batch is over 32,768 bytes or not valid, or a queue",
            ),
            (&["desk", &pool, "01", "000400000007"], "refused with 3: "),
        ] {
            let refused = said(line);
            assert_eq!((refused.status, refused.text.as_str()), (1, ""), "{line:?}");
            assert!(refused.note.contains(why), "{}", refused.note);
        }
        assert_eq!(std::fs::read(&pool).expect("is there"), before);
        assert_eq!(text(&of_seventeen[..18]).lines().count(), 16 + 1 + 16, "one queue fewer is served");
        for (words, why) in [(&[][..], "a queue expected"), (&[GET, "0x"], "bytes are pairs"), (&["0"], "1 digits")] {
            let wrong = said(&[&["desk", &pool], words].concat());
            assert!(wrong.status == 2 && wrong.note.contains(why), "{wrong:?}");
        }
    }
}
