//! The C example, compiled as C99 and as C++ against the proved book, prints what is stored beside it.

use std::fs;

use crate::folder::{root, Folder, LIBRARY};
use yokehour_host::books::proved_to_compare;

/// The length of the pool that the example keeps in its file.
const POOL_BYTES: u64 = 65_536;

#[test]
fn as_c99() {
    check("cc", &["-std=c99", "-pedantic", "-x", "c"]);
}

#[test]
fn as_cpp() {
    check("c++", &["-x", "c++"]);
}

/// Compiles and runs the example in a folder of its own; nothing is asked of a build without the proved book.
fn check(compiler: &str, language: &[&str]) {
    if proved_to_compare().unwrap_or_else(|missing| panic!("{missing}")).is_none() {
        return;
    }
    let folder = Folder::new(&format!("example-{compiler}"));
    // The language named is that of the source alone.
    folder.compile(compiler, &[language, &["examples/c/book.c", "-x", "none", LIBRARY]].concat(), "book");
    let stored = fs::read_to_string(root().join("examples/c/stdout")).expect("the stored output");
    assert_eq!(folder.run("book", &["wall.pool"]), stored);
    assert_eq!(folder.bytes_of("wall.pool"), POOL_BYTES);
}
