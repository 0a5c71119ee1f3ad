//! `put`: a key gets a value.

use super::pool::CALL_OPTIONS;
use super::words::{Options, Words};
use super::{answer, Said, Stop, Verb};
use crate::command::Command;

pub(super) const VERB: Verb = Verb {
    name: "put",
    words: "FILE KEY VALUE",
    about: "gives a key a value, and tells the one it had",
    more: "Exit status 1 where too few node ids are left for it: the answer then carries 9.",
    options: CALL_OPTIONS,
    run,
};

fn run(words: &mut Words<'_>, options: &Options) -> Result<Said, Stop> {
    let (file, key, value) = (words.word("a file")?, words.number("a key")?, words.number("a value")?);
    words.end()?;
    answer::change(file, options, Command::Put { key, value })
}

#[cfg(test)]
mod tests {
    use crate::tool::trial::{said, text, Folder};

    #[test]
    fn a_key_is_put_got_and_deleted() {
        let folder = Folder::new("put");
        let pool = folder.prepared("p");
        assert_eq!(text(&["put", &pool, "7", "100"]), "key 7 is new, with value 100\ncharge 4\n");
        assert_eq!(text(&["put", &pool, "0x7", "0xFF"]), "key 7 has value 255, before 100\ncharge 4\n");
        assert_eq!(text(&["get", &pool, "7"]), "key 7 has value 255\ncharge 3\n");
        let deleted = text(&["delete", &pool, "7"]);
        assert!(deleted.starts_with("key 7 is deleted, its value was 255\ncharge "), "{deleted}");
        for verb in ["get", "delete"] {
            let absent = said(&[verb, &pool, "7"]);
            assert!(absent.status == 1 && absent.text.starts_with("key 7 is not there\ncharge "), "{absent:?}");
        }
        assert_eq!(folder.names(), ["p"]);
    }

    #[test]
    fn a_dry_call_and_a_refused_one_leave_the_file() {
        let folder = Folder::new("dry");
        let pool = folder.prepared("p");
        let before = std::fs::read(&pool).expect("is there");
        text(&["put", &pool, "7", "100", "--dry"]);
        assert_eq!(std::fs::read(&pool).expect("is there"), before);
        let broken = folder.file("broken");
        let mut bytes = before;
        bytes[22] ^= 1;
        std::fs::write(&broken, &bytes).expect("is written");
        let refused = said(&["put", &broken, "7", "100"]);
        assert_eq!((refused.status, refused.text.as_str()), (1, ""));
        assert!(refused.note.contains("refused with 5: a page, or the pages together"), "{}", refused.note);
        assert_eq!(std::fs::read(&broken).expect("is there"), bytes);
    }

    #[test]
    fn a_put_without_an_id_to_spare_is_said_with_its_number() {
        let folder = Folder::new("nine");
        let pool = folder.prepared("p");
        let pairs: String = (0..240).map(|key| format!("{key},{key}\n")).collect();
        std::fs::write(folder.file("csv"), pairs).expect("is written");
        text(&["import", &pool, &folder.file("csv")]);
        let refused = said(&["put", &pool, "240", "1"]);
        let words = "key 240 is not put: refused with 9: too few node ids are left for the split that it needs\n";
        assert_eq!((refused.status, refused.text), (1, format!("{words}charge 0\n")));
    }
}
