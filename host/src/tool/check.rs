//! `check`: every fault of a pool that can be told.

use super::fault_runs::runs;
use super::json::Json;
use super::node::spelled;
use super::pool::Pool;
use super::words::{counted, Options, Words};
use super::{Said, Stop, Verb};
use crate::mount::examine;
use crate::refusal::{words as refusal_words, Fault, Place, Refusal};
use crate::tree;

pub(super) const VERB: Verb = Verb {
    name: "check",
    words: "FILE",
    about: "every fault that can be told, with its page and byte",
    more: "A line for each fault begins with the number that it is refused with; the least number is the book's.\n\
           Faults from 6 on are told of the pages that check: where others do not, they may follow from those.\n\
           The book is asked too, by an empty batch on a copy. Exit status 0 if there is no fault, 1 if there is.\n\n\
           --json has the keys file, bytes, number (0, or the least of the faults), book (the number that the book\n\
           says), keys and nodes (null where there is a fault), and faults: a list of number, why and block, node,\n\
           page and byte (null where it has none).",
    options: &["--book", "--json", "--spare", "--offset", "--swap"],
    run,
};

fn run(words: &mut Words<'_>, options: &Options) -> Result<Said, Stop> {
    let name = words.word("a file")?;
    words.end()?;
    let pool = Pool::look(name, options)?;
    let bytes = pool.bytes.clone();
    let found = Found { name, bytes: &bytes, faults: examine(&bytes).faults, book: pool.number() };
    let text = if options.json { format!("{}\n", found.json()?) } else { found.text()? };
    let status = u8::from(found.number() != 0 || found.book != 0);
    Ok(Said { text, status, ..Said::default() })
}

/// What was found of a pool.
struct Found<'a> {
    name: &'a str,
    bytes: &'a [u8],
    faults: Vec<Fault>,
    /// The number that the book says.
    book: u8,
}

impl Found<'_> {
    /// The number that the faults say.
    fn number(&self) -> u8 {
        self.faults.first().map_or(0, |fault| fault.refusal.number())
    }

    fn text(&self) -> Result<String, Stop> {
        let (name, own, book) = (self.name, self.number(), self.book);
        let mut text: String = runs(&self.faults).iter().map(|run| run.line(self.bytes.len())).collect();
        text.push_str(&match self.faults.first() {
            None => {
                let (keys, nodes) = self.counts()?;
                format!("{name}: no fault; {} in {}\n", counted(keys, "key"), counted(nodes, "node"))
            }
            Some(fault) => format!("{name}: {}, {}\n", counted(self.faults.len(), "fault"), refused(fault)),
        });
        if own != book {
            let differ = format!("the book says {book}, where the faults say {own}: one of the two is wrong");
            text.push_str(&format!("{name}: {differ}\n"));
        }
        Ok(text)
    }

    fn json(&self) -> Result<Json, Stop> {
        let counts = if self.faults.is_empty() { Some(self.counts()?) } else { None };
        Ok(Json::Object(vec![
            ("file", self.name.into()),
            ("bytes", self.bytes.len().into()),
            ("number", u32::from(self.number()).into()),
            ("book", u32::from(self.book).into()),
            ("keys", counts.map(|(keys, _)| keys).into()),
            ("nodes", counts.map(|(_, nodes)| nodes).into()),
            ("faults", Json::List(self.faults.iter().map(fault_json).collect())),
        ]))
    }

    /// The keys and the nodes of a pool without a fault.
    fn counts(&self) -> Result<(usize, usize), Stop> {
        let mounted = spelled(self.name, self.bytes)?;
        Ok((tree::pairs(&mounted.nodes).len(), mounted.nodes.len()))
    }
}

fn fault_json(fault: &Fault) -> Json {
    let (mut block, mut node) = (None, None);
    match fault.at {
        Place::Block(number) => block = Some(number),
        Place::Node(id, _) => node = Some(id),
        _ => {}
    }
    Json::Object(vec![
        ("number", u32::from(fault.refusal.number()).into()),
        ("why", fault.why.into()),
        ("block", block.into()),
        ("node", node.into()),
        ("page", fault.at.page().into()),
        ("byte", fault.at.byte().into()),
    ])
}

fn refused(fault: &Fault) -> String {
    let number = Refusal::number(fault.refusal);
    format!("refused with {number}: {}", refusal_words(number))
}

#[cfg(test)]
mod tests {
    use crate::damage;
    use crate::foreign::{self, flaw::FLAWS, Build, PoolStyle};
    use crate::layout::{page_range, BLANK, MIN_BLOCKS, PAGE_BYTES};
    use crate::mount::examine;
    use crate::random::Random;
    use crate::refusal::{Byte, Place, Refusal};
    use crate::tool::fault_runs::runs;
    use crate::tool::trial::{said, text, Folder};
    use crate::tool::Said;

    const SMALL: PoolStyle = PoolStyle { blocks: MIN_BLOCKS, build: Build::Any };

    /// Checks a pool by way of a file.
    fn checked(folder: &Folder, pool: &[u8]) -> Said {
        let name = folder.file("p");
        std::fs::write(&name, pool).expect("is written");
        let said = said(&["check", &name]);
        assert!(!said.text.contains("one of the two is wrong"), "{}", said.text);
        said
    }

    /// What is found of each flaw, where its own name is not the word for it.
    fn expected(flaw: &str) -> &[&str] {
        match flaw {
            "a sequence number twice" => &[
                "a sequence number twice",
                // The lower number that a page gets may be that of its entries.
                "an entry's version is 0 or not below the page's sequence number",
            ],
            "a version that is a page's sequence number" => &["a version is a page's sequence number"],
            "a version not below its page's sequence number" | "version 0" => {
                &["an entry's version is 0 or not below the page's sequence number"]
            }
            "a log page without an entry" => &["no content behind the sequence number"],
            "a checkpoint page neither full nor last" => &["a checkpoint page that is not the last is not full"],
            "a checkpoint page with one score too many" => &["a checkpoint page has no score or too many"],
            "a second partly written block" | "a partly written block without the newest page" => {
                &["partly written without the newest page"]
            }
            "a blank page before a written one" => &["a written page behind a blank one"],
            "an unknown kind" | "a delete with a pointer" | "a link with a key" => {
                &["an entry's kind is unknown or goes with other numbers"]
            }
            "a node page neither leaf nor branch" => &["a node page is neither leaf nor branch"],
            "a byte behind the sum" => &["a byte other than FF behind the sum"],
            "a sum that is off" => &["the sum differs"],
            "no field 10" => &["no sequence number first"],
            "field 10 twice" => &["no content behind the sequence number"],
            "a field of another length" => &[
                "no sequence number first",
                "no valid field before a log entry",
                "no valid field behind the sequence number",
            ],
            "25 keys on a node page" => &["no valid field behind the sequence number"],
            "no sum"
            | "a field that no page has"
            | "two kinds of content"
            | "two nodes on a node page"
            | "28 entries on a log page"
            | "a count before a score"
            | "two counts on a page" => &["no sum behind the content"],
            "a tariff behind a score" => {
                &["no sum behind the content", "a checkpoint page that is not the last is not full"]
            }
            "two tariffs on a page" => &["a checkpoint page has no score or too many"],
            "a checkpoint page without a score" => {
                &["a checkpoint page has no score or too many", "no content behind the sequence number"]
            }
            "a newest page that is no checkpoint page" | "a log page within the checkpoint" => {
                &["no checkpoint page among the newest"]
            }
            "an id with two scores" => &["two scores of one id"],
            "a score of an id at the count" | "a count of 0" => &["a score of an id at or above the count"],
            "a count on an older page" | "no count on the newest page" => {
                &["the count is not on the newest page alone"]
            }
            "no tariff" => &["no tariff", "no checkpoint page among the newest"],
            "a leaf's link that leads elsewhere" => &["a leaf's link is not the next leaf", "the last leaf has a link"],
            "a leaf's key above its bounds"
            | "a leaf's key below its bounds"
            | "a branch's key above its bounds"
            | "a branch's key below its bounds" => &["a key is out of its bounds"],
            "a pointer to the root" | "a node reached twice" => &["a pointer to a node that was reached before"],
            "a pointer to the count" | "a pointer above 16 bits" => &["a pointer to no node"],
            "a node that is not reached" => &["a node is not reached"],
            "a leaf deeper than the others" | "a leftmost path longer than the others" => {
                &["a leaf at another depth than the first"]
            }
            "keys that descend" | "a key twice" => &["keys do not ascend"],
            "a branch without a key" => &["a branch has no key"],
            "a 25th key for a moment" => &["more than 24 keys after an entry"],
            "no link" => &["no entry sets the link"],
            "a score at the limit" => &["a score at the limit or above"],
            "a tariff out of range" => &["the tariff is out of range"],
            "a node on four log pages" => &["on more than three log pages"],
            "a node on no page" => &["on no page"],
            "a sequence number above 4,000,000,000" => &["sequence numbers are used up"],
            _ => &[],
        }
    }

    #[test]
    fn every_flaw_is_found_and_named() {
        let folder = Folder::new("flaws");
        let mut random = Random::new(5);
        for flaw in FLAWS {
            let mut style = || PoolStyle { blocks: random.between(MIN_BLOCKS, 10), build: Build::Any };
            let styles: Vec<PoolStyle> = (0..400).map(|_| style()).collect();
            let pools: Vec<Vec<u8>> =
                styles.into_iter().filter_map(|style| flaw.make(&mut random, style)).take(3).collect();
            assert!(!pools.is_empty(), "{}", flaw.name);
            for pool in pools {
                let faults = examine(&pool).faults;
                assert_eq!(faults.first().map(|fault| fault.refusal.number()), Some(flaw.number), "{}", flaw.name);
                let own = [flaw.name];
                let words = Some(expected(flaw.name)).filter(|words| !words.is_empty()).unwrap_or(&own);
                let found = |number, why| number == flaw.number && words.contains(&why);
                let found = faults.iter().any(|fault| found(fault.refusal.number(), fault.why));
                assert!(found, "{}: {faults:?}", flaw.name);
                let said = checked(&folder, &pool);
                assert_eq!((said.status, said.text.lines().count()), (1, runs(&faults).len() + 1), "{}", said.text);
            }
        }
    }

    #[test]
    fn a_changed_byte_is_found_on_its_page() {
        let mut random = Random::new(3);
        for _ in 0..200 {
            let sound = foreign::make(&mut random, SMALL).pool;
            let mut pool = sound.clone();
            damage::change_byte(&mut random, &mut pool);
            let changed = (0..pool.len()).find(|&at| pool[at] != sound[at]).expect("one changed") / PAGE_BYTES;
            let fault = examine(&pool).faults[0];
            assert_eq!(fault.refusal, Refusal::Pages);
            assert!(matches!(fault.at, Place::Byte(Byte { page, .. }) if page == changed), "{fault}");
        }
    }

    #[test]
    fn bytes_with_mended_sums_and_moved_pages_are_judged_as_the_book_judges() {
        let folder = Folder::new("mended");
        let mut random = Random::new(4);
        let mut faulty = 0;
        for round in 0..120 {
            let mut pool = foreign::make(&mut random, SMALL).pool;
            match round % 2 {
                0 => damage::change_mended(&mut random, &mut pool),
                _ => damage::move_pages(&mut random, &mut pool),
            }
            let said = checked(&folder, &pool);
            faulty += u32::from(said.status);
            assert_eq!(said.status == 0, examine(&pool).faults.is_empty());
        }
        assert!(faulty >= 40, "{faulty} of 120 pools had a fault");
    }

    #[test]
    fn a_hole_is_told_once() {
        let folder = Folder::new("hole");
        let pool = folder.prepared("p");
        for value in ["100", "101", "102"] {
            text(&["put", &pool, "7", value]);
        }
        let mut bytes = std::fs::read(&pool).expect("is there");
        bytes[page_range(3)].fill(BLANK);
        let hole = "5: page 4: a written page behind a blank one\n";
        let said = checked(&folder, &bytes);
        assert_eq!(said.text.matches("behind a blank one").count(), 1, "{}", said.text);
        assert!(said.status == 1 && said.text.starts_with(hole), "{}", said.text);
    }

    #[test]
    fn two_flaws_are_two_lines() {
        let folder = Folder::new("two");
        let pool = folder.prepared("p");
        text(&["put", &pool, "7", "100"]);
        assert_eq!(text(&["check", &pool]), format!("{pool}: no fault; 1 key in 1 node\n"));
        let mut bytes = std::fs::read(&pool).expect("is there");
        bytes[PAGE_BYTES + 10] ^= 1;
        bytes[2 * PAGE_BYTES + 16] = 9;
        std::fs::write(&pool, bytes).expect("is written");
        let faults = "5: page 1, byte 59: the sum differs\n\
                      5: page 2, byte 16: an entry's kind is unknown or goes with other numbers\n\
                      5: page 2, byte 28: the sum differs\n";
        let last = format!("{pool}: 3 faults, refused with 5: a page, or the pages together, break the layout\n");
        let said = said(&["check", &pool]);
        assert_eq!((said.status, said.text), (1, format!("{faults}{last}")));
    }

    #[test]
    fn a_wrong_length_is_told_with_the_nearest_that_would_do() {
        let folder = Folder::new("length");
        for (bytes, nearest) in [
            (100, "100 bytes, where 65,536 (4 blocks) are the nearest"),
            (65_535, "65,535 bytes, where 65,536 (4 blocks) are the nearest"),
            (5 * 16_384 + 1, "81,921 bytes, where 81,920 (5 blocks) are the nearest"),
            (65 * 16_384, "1,064,960 bytes, where 1,048,576 (64 blocks) are the nearest"),
        ] {
            let said = checked(&folder, &vec![BLANK; bytes]);
            let line = format!("1: the pool: no length of a pool: {nearest}\n");
            assert!(said.status == 1 && said.text.starts_with(&line), "{}", said.text);
            let refused = crate::tool::trial::said(&["get", &folder.file("p"), "7"]);
            assert!(refused.status == 1 && refused.note.contains(&format!("({nearest})")), "{}", refused.note);
        }
    }

    #[test]
    fn a_run_of_bad_pages_is_one_line() {
        let folder = Folder::new("runs");
        let pool = folder.prepared("p");
        (0..20).for_each(|_| drop(text(&["run", &pool, "-"])));
        let mut bytes = std::fs::read(&pool).expect("is there");
        (12..20).for_each(|page| bytes[page * PAGE_BYTES] = 0);
        let name = folder.file("p");
        let last =
            |count: usize| format!("{name}: {count} faults, refused with 5: a page, or the pages together, break");
        let lines = |pages: &str| {
            format!("5: pages {pages}, byte 0: no sequence number first\n5: pages {pages}, byte 59: the sum differs\n")
        };
        let told = checked(&folder, &bytes).text;
        assert!(told.starts_with(&(lines("12 to 19") + &last(16))), "{told}");
        bytes[15 * PAGE_BYTES] = 0x10;
        let told = checked(&folder, &bytes).text;
        assert!(told.starts_with(&(lines("12 to 14") + &lines("16 to 19") + &last(14))), "{told}");
        bytes[13 * PAGE_BYTES] = 0x10;
        let told = checked(&folder, &bytes).text;
        assert!(told.starts_with("5: page 12, byte 0: no sequence number first\n5: page 12, byte 59: "), "{told}");
    }
}
