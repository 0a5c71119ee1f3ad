//! `export`: all pairs as text.

use super::pool::Pool;
use super::words::{counted, Options, Words};
use super::{csv, file, scan, Said, Stop, Verb};

pub(super) const VERB: Verb = Verb {
    name: "export",
    words: "FILE [CSV]",
    about: "all pairs as key,value lines, to a file or to standard output",
    more:
        "The pool is left as it was. A CSV that is there already is kept, unless --force is given; a device or a pipe\n\
           is written through.",
    options: &["--book", "--force", "--spare", "--offset", "--swap"],
    run,
};

fn run(words: &mut Words<'_>, options: &Options) -> Result<Said, Stop> {
    let (name, target) = (words.word("a file")?, words.next());
    words.end()?;
    let mut pool = Pool::look(name, options)?;
    let pairs = scan::scanned(&mut pool, 0, u32::MAX, usize::MAX)?.pairs;
    let lines = csv::lines(&pairs);
    let note = format!("{}\n", counted(pairs.len(), "pair"));
    match target {
        None => Ok(Said { text: lines, note, status: 0 }),
        Some(target) => {
            file::write(target, lines.as_bytes(), &[name], options.force)?;
            Ok(Said { note, ..Said::default() })
        }
    }
}

#[cfg(test)]
mod tests {
    use crate::foreign::{self, Build, PoolStyle};
    use crate::layout::MAX_SEQUENCE;
    use crate::mount::mount;
    use crate::random::Random;
    use crate::tool::csv;
    use crate::tool::trial::{text, Folder};
    use crate::tree;

    #[test]
    fn every_pool_that_opens_is_exported_the_last_sequence_number_used_or_not() {
        let folder = Folder::new("export");
        let name = folder.file("p");
        let mut random = Random::new(6);
        let mut at_the_end = 0;
        for _ in 0..40 {
            let made = foreign::make(&mut random, PoolStyle { blocks: 6, build: Build::Any });
            std::fs::write(&name, &made.pool).expect("is written");
            assert_eq!(text(&["export", &name]), csv::lines(&tree::pairs(&made.paper.nodes)));
            at_the_end += u32::from(mount(&made.pool).expect("opens").last_sequence == MAX_SEQUENCE);
        }
        assert!(at_the_end > 0);
    }
}
