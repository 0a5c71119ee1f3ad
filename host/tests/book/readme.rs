//! The lines of the two READMEs that run `wallbook` do what they say, whichever books the build has.

use std::path::Path;
use std::process::Command;

use yokehour_host::books::by_name;

use crate::programs::{noted, Folder};

/// How the READMEs call the program.
pub const PROGRAM: &str = "target/release/wallbook";

/// The lines of a README that call it, in their order.
pub fn lines(readme: &str) -> Vec<String> {
    let path = Path::new(env!("CARGO_MANIFEST_DIR")).join(readme);
    let text = std::fs::read_to_string(path).expect("is there");
    text.lines().filter(|line| line.contains(&format!("{PROGRAM} "))).map(str::to_string).collect()
}

#[test]
fn every_line_with_the_tool_works_as_pasted() {
    for (readme, least) in [("../README.md", 4), ("README.md", 9)] {
        let folder = Folder::new("readme");
        std::fs::create_dir_all(folder.path("target/release")).expect("a folder");
        std::os::unix::fs::symlink(env!("CARGO_BIN_EXE_wallbook"), folder.path(PROGRAM)).expect("a link");
        let lines = lines(readme);
        assert!(lines.len() >= least, "{lines:?}");
        for line in lines {
            let output = Command::new("sh").args(["-c", &line]).current_dir(folder.path("")).output().expect("runs");
            let (status, said) = noted(output);
            assert_eq!(status, Some(0), "{line}: {said}");
            // Without the proved book one line says so; with it nobody speaks of it.
            let spoken = said.matches("the second book does the work").count();
            assert!(spoken <= usize::from(by_name("proved").is_err()), "{line}: {said}");
        }
    }
}
