//! The pictures in docs/ are what the tool draws of the pool that host/README.md fills.

use std::path::Path;
use std::process::Command;

use crate::programs::Folder;
use crate::readme::{lines, PROGRAM};

/// The variable that makes this test write the picture anew.
const WRITE: &str = "WALLBOOK_PICTURES";

#[test]
fn the_pool_of_the_readme_looks_as_its_picture() {
    let folder = Folder::new("pictures");
    std::fs::create_dir(folder.path("target")).expect("a folder");
    let program = format!("'{}'", env!("CARGO_BIN_EXE_wallbook"));
    for line in lines("README.md").iter().take_while(|line| !line.contains(" html ")) {
        let mut shell = Command::new("sh");
        let output = shell.args(["-c", &line.replace(PROGRAM, &program)]).current_dir(folder.path("")).output();
        assert!(output.expect("runs").status.success(), "{line}");
    }
    let drawn = String::from_utf8(folder.bytes("target/gym.svg")).expect("is text");
    let picture = Path::new(env!("CARGO_MANIFEST_DIR")).join("../docs/pictures/pool.svg");
    if std::env::var_os(WRITE).is_some_and(|word| word == "write") {
        std::fs::write(&picture, &drawn).expect("is written");
    }
    let committed = std::fs::read_to_string(&picture).unwrap_or_default();
    assert!(
        committed == drawn,
        "docs/pictures/pool.svg is not what the tool draws of the pool in host/README.md; \
         {WRITE}=write cargo test pictures writes it anew"
    );
}
