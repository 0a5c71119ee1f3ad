//! `prepare`: a new pool with an empty map.

use super::pool::Pool;
use super::words::{Options, Words};
use super::{file, tariff, Said, Stop, Verb};
use crate::layout::node_limit;
use crate::markdown::grouped;

pub(super) const VERB: Verb = Verb {
    name: "prepare",
    words: "FILE BLOCKS [TARIFF ..]",
    about: "makes a pool of 4 to 64 blocks with an empty map",
    more: "The tariff is eight numbers: what a read, an edit and a rewrite cost in log mode, the same in disk mode\n\
           (0 to 1,000,000), and what a switch to disk and one to log cost (1 to 1,000,000); 3 1 2 1 4 4 3 2 where\n\
           it is not given. A file that is there already is kept, unless --force is given.",
    options: &["--book", "--force"],
    run,
};

fn run(words: &mut Words<'_>, options: &Options) -> Result<Said, Stop> {
    let (name, blocks) = (words.word("a file")?, words.number("a count of blocks")?);
    let tariff = match words.number_if_any("a tariff number")? {
        None => tariff::WORKED,
        Some(first) => tariff::rest(first, words)?,
    };
    words.end()?;
    // A device too: nothing is written through that nobody asked to be made anew.
    if !options.force && std::fs::exists(name).unwrap_or(true) {
        return Err(Stop::wrong(format!("{name} is there already; --force makes it anew, and what it holds is lost")));
    }
    let pool = Pool::prepared(name, blocks, tariff, options)?;
    file::write(name, &pool.bytes, &[], options.force)?;
    let (bytes, nodes) = (grouped(pool.bytes.len() as u128), node_limit(blocks as usize));
    Ok(Said::text(format!("{name}: {blocks} blocks, {bytes} bytes, an empty map of at most {nodes} nodes\n")))
}

#[cfg(test)]
mod tests {
    use crate::tool::trial::{said, text, Folder};
    use crate::wire::fnv1a64;

    #[test]
    fn a_pool_is_prepared_once() {
        let folder = Folder::new("prepare");
        let file = folder.file("p");
        let words = format!("{file}: 4 blocks, 65,536 bytes, an empty map of at most 20 nodes\n");
        assert_eq!(text(&["prepare", &file, "4", "3", "1", "2", "1", "4", "4", "3", "2"]), words);
        assert_eq!(fnv1a64(&std::fs::read(&file).expect("is there")), 0xe593_8a6f_1717_e51f);
        assert_eq!(said(&["prepare", &file, "5"]).status, 2);
        assert_eq!(text(&["prepare", &file, "4", "--force"]), words);
    }

    #[test]
    fn what_cannot_be_prepared_leaves_no_file() {
        let folder = Folder::new("unprepared");
        let file = folder.file("p");
        for (blocks, number) in [("3", 1), ("65", 1), ("4294967295", 1), ("0", 1)] {
            let refused = said(&["prepare", &file, blocks]);
            assert!(refused.status == 1 && refused.note.contains(&format!("refused with {number}: ")), "{refused:?}");
        }
        let refused = said(&["prepare", &file, "4", "0", "0", "0", "0", "0", "0", "0", "1"]);
        assert!(refused.status == 1 && refused.note.contains("refused with 10: a tariff number"), "{refused:?}");
        for line in [&["prepare", &file][..], &["prepare", &file, "4", "1"], &["prepare", &file, "x"]] {
            assert_eq!(said(line).status, 2, "{line:?}");
        }
        assert!(folder.names().is_empty());
    }
}
