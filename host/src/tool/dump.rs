//! A pool out of a dump, as chips and their readers give them: spare bytes behind each page, something before the
//! pool, words of 16 bits swapped, or all of it as hexadecimal text.

mod found;
mod hex;

use super::words::Options;
use super::{file, Stop};
use crate::layout::PAGE_BYTES;
use crate::output::note;

/// What a verb that only reads a pool says of dumps.
pub(super) const HOW: &str =
    "FILE may be a dump, also as text of xxd, hexdump -C or plain hexadecimal. Where --spare, --offset and --swap\n\
     are not given and it is no pool as it stands, how its pages lie is found out if it can be, and said.";

/// The options that say how a dump lies.
pub(super) const OPTIONS: [&str; 3] = ["--spare", "--offset", "--swap"];

/// How the pages of a pool lie in a dump.
#[derive(Clone, Copy, PartialEq, Eq, Debug, Default)]
pub(super) struct Form {
    /// Bytes before the first page.
    pub offset: usize,
    /// Bytes behind each page.
    pub spare: usize,
    /// Whether the two bytes of each word are swapped.
    pub swap: bool,
}

impl Form {
    /// The pool that a dump holds.
    pub fn pool(&self, dump: &[u8]) -> Vec<u8> {
        let mut bytes = dump.get(self.offset..).unwrap_or_default().to_vec();
        if self.swap {
            bytes.as_chunks_mut::<2>().0.iter_mut().for_each(|word| word.reverse());
        }
        let pages = bytes.chunks(PAGE_BYTES + self.spare);
        pages.flat_map(|page| &page[..page.len().min(PAGE_BYTES)]).copied().collect()
    }

    /// What is uncommon about it, in words.
    fn words(&self) -> Vec<String> {
        let offset = (self.offset > 0).then(|| format!("from byte {} on", self.offset));
        let spare = (self.spare > 0).then(|| format!("{} spare bytes behind each page", self.spare));
        let swap = self.swap.then(|| "16-bit words swapped".to_string());
        [offset, spare, swap].into_iter().flatten().collect()
    }
}

/// The pool of a file that is only read; what was found out about a dump is said.
pub(super) fn read(name: &str, options: &Options) -> Result<Vec<u8>, Stop> {
    let raw = file::read(name)?;
    let mut words = Vec::new();
    let bytes = match hex::bytes(&raw) {
        None => raw,
        Some(bytes) => {
            words.push("hexadecimal text".to_string());
            bytes.map_err(|why| Stop::wrong(format!("{name}: {why}")))?
        }
    };
    let form = match options.form {
        Some(form) => form,
        None => {
            let form = found::form(&bytes).unwrap_or_default();
            words.extend(form.words());
            form
        }
    };
    if !words.is_empty() {
        note(&format!("wallbook: {name} is read as a dump: {}\n", words.join(", ")));
    }
    Ok(form.pool(&bytes))
}

#[cfg(test)]
mod tests {
    use super::*;
    use crate::tool::trial::{said, text, Folder};

    /// A pool of four blocks with some keys.
    fn filled(folder: &Folder) -> Vec<u8> {
        let pool = folder.prepared("p");
        let csv: String = (0..60).map(|key| format!("{key},{}\n", 1000 - key)).collect();
        std::fs::write(folder.file("csv"), csv).expect("is written");
        text(&["import", &pool, &folder.file("csv")]);
        std::fs::read(&pool).expect("is there")
    }

    /// A dump of a pool that lies so, with anything between.
    fn dumped(pool: &[u8], form: Form) -> Vec<u8> {
        let mut dump = vec![0x5A; form.offset];
        for page in pool.chunks(PAGE_BYTES) {
            dump.extend(page);
            dump.extend((0..form.spare).map(|at| (at * 37 + page[10] as usize) as u8));
        }
        if form.swap {
            dump[form.offset..].as_chunks_mut::<2>().0.iter_mut().for_each(|word| word.reverse());
        }
        dump
    }

    const FORMS: [Form; 7] = [
        Form { offset: 0, spare: 16, swap: false },
        Form { offset: 100, spare: 0, swap: false },
        Form { offset: 0, spare: 0, swap: true },
        Form { offset: 64, spare: 8, swap: false },
        Form { offset: 2048, spare: 64, swap: true },
        Form { offset: 0, spare: 1, swap: false },
        Form { offset: 0, spare: 256, swap: false },
    ];

    #[test]
    fn a_dump_is_read_as_it_is_told_to_lie() {
        let folder = Folder::new("dump-told");
        let pool = filled(&folder);
        let dump = folder.file("dump");
        let (keys, figures) = (text(&["export", &folder.file("p")]), text(&["show", &folder.file("p")]));
        for form in FORMS {
            assert_eq!(form.pool(&dumped(&pool, form)), pool);
            std::fs::write(&dump, dumped(&pool, form)).expect("is written");
            let (offset, spare) = (form.offset.to_string(), form.spare.to_string());
            let swap: &[&str] = if form.swap { &["--swap"] } else { &[] };
            let told = [&["--offset", &offset, "--spare", &spare][..], swap].concat();
            assert_eq!(text(&[&["export", &dump][..], &told].concat()), keys, "{form:?}");
            let shown = text(&[&["show", &dump][..], &told].concat());
            assert_eq!(shown.replace(&dump, &folder.file("p")), figures, "{form:?}");
            assert_eq!(text(&["export", &dump]), keys, "{form:?}, found out");
        }
    }

    #[test]
    fn every_verb_that_only_reads_takes_a_dump_and_no_other_does() {
        let folder = Folder::new("dump-verbs");
        let pool = filled(&folder);
        let dump = folder.file("dump");
        let bytes = dumped(&pool, Form { offset: 0, spare: 16, swap: false });
        std::fs::write(&dump, &bytes).expect("is written");
        for line in [
            &["get", &dump, "7"][..],
            &["scan", &dump, "0", "9"],
            &["ceiling", &dump, "7"],
            &["check", &dump],
            &["stats", &dump],
            &["show", &dump],
            &["page", &dump, "3"],
            &["node", &dump],
            &["diff", &dump, &dump],
            &["salvage", &dump],
            &["export", &dump],
            &["bench", &dump],
            &["picture", &dump, &folder.file("svg"), "--force"],
        ] {
            assert_eq!(said(line).status, 0, "{line:?}");
            assert_eq!(said(&[line, &["--spare", "16"]].concat()).status, 0, "{line:?}");
        }
        for line in [&["put", &dump, "7", "1"][..], &["run", &dump, "-"], &["import", &dump, &folder.file("csv")]] {
            assert_eq!(said(line).status, 1, "{line:?}: a dump is not written");
            assert_eq!(said(&[line, &["--spare", "16"]].concat()).status, 2, "{line:?}");
        }
        let charged = said(&["get", &dump, "7", "--spare", "16", "--charge"]);
        assert!(charged.status == 2 && charged.note.contains("--charge"), "{charged:?}");
        assert_eq!(std::fs::read(&dump).expect("is there"), bytes);
    }
}
