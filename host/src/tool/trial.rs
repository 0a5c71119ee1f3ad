//! What the tests of the verbs share: a folder of their own, and a line that is run in it.

use super::{run, Said};

/// A folder that goes when the test ends.
pub(super) struct Folder(std::path::PathBuf);

impl Folder {
    pub fn new(test: &str) -> Folder {
        let path = std::env::temp_dir().join(format!("wallbook-{}-{test}", std::process::id()));
        std::fs::create_dir_all(&path).expect("a folder for tests");
        Folder(path)
    }

    /// The full name of a file in it.
    pub fn file(&self, name: &str) -> String {
        self.0.join(name).to_str().expect("a plain path").to_string()
    }

    /// The files that are in it.
    pub fn names(&self) -> Vec<String> {
        let entries = std::fs::read_dir(&self.0).expect("is there");
        let mut names: Vec<String> =
            entries.map(|entry| entry.expect("can be read").file_name().to_string_lossy().into_owned()).collect();
        names.sort();
        names
    }

    /// A pool of four blocks, prepared under document 01's worked tariff.
    pub fn prepared(&self, name: &str) -> String {
        let file = self.file(name);
        assert_eq!(said(&["prepare", &file, "4"]).status, 0);
        file
    }
}

impl Drop for Folder {
    fn drop(&mut self) {
        let _ = std::fs::remove_dir_all(&self.0);
    }
}

/// Runs a line with the second book, which every build has, where the verb takes a book.
pub(super) fn said(line: &[&str]) -> Said {
    let verb = line.first().and_then(|name| super::VERBS.iter().find(|verb| verb.name == *name));
    let book = verb.filter(|verb| verb.options.contains(&"--book")).map(|_| ["--book", "second"]);
    let line: Vec<String> = line.iter().copied().chain(book.into_iter().flatten()).map(str::to_string).collect();
    run(&line)
}

/// What a line prints, where it must be done.
pub(super) fn text(line: &[&str]) -> String {
    let said = said(line);
    assert_eq!(said.status, 0, "{line:?}: {}", said.note);
    said.text
}
