//! The books of this build, by name.

use std::io::Write;
use std::sync::Once;

use crate::book::{Book, SecondBook};

/// The books that a tool can be asked for by name.
pub const BOOK_NAMES: &str = "second, proved";

/// The variable that makes it an error where something proved is missing: the book, a program, what C is compiled with.
const REQUIRED: &str = "WALL_BOOK_REQUIRED";

/// Says whether a test that lacks something proved should fail, and not be left out.
pub fn is_required() -> bool {
    std::env::var_os(REQUIRED).is_some_and(|value| value == "1")
}

/// Why there is no proved book in a build without it.
#[cfg(not(proved_book))]
const MISSING: &str = "this build has no proved book; make it with `tools/library`, and build again";

/// The book of a name, or why there is none.
///
/// A book from elsewhere needs a type that implements [`Book`] and a line here.
pub fn by_name(name: &str) -> Result<Box<dyn Book>, String> {
    match name {
        "second" => Ok(Box::new(SecondBook)),
        #[cfg(proved_book)]
        "proved" => Ok(Box::new(crate::proved::ProvedBook)),
        #[cfg(not(proved_book))]
        "proved" => Err(MISSING.to_string()),
        _ => Err(format!("no book is called {name:?}; there are: {BOOK_NAMES}")),
    }
}

/// The place of the proved book's code in memory, or why it has none.
pub fn proved_code() -> Result<usize, String> {
    #[cfg(proved_book)]
    return Ok(crate::proved::code_address());
    #[cfg(not(proved_book))]
    Err(MISSING.to_string())
}

/// The proved book, to be compared with the second one.
///
/// A build without it is an error where it is required; elsewhere a line on standard error says it once.
pub fn proved_to_compare() -> Result<Option<Box<dyn Book>>, String> {
    static NOTICE: Once = Once::new();
    let missing = match by_name("proved") {
        Ok(proved) => return Ok(Some(proved)),
        Err(missing) => missing,
    };
    if is_required() {
        return Err(format!("{REQUIRED} is 1, but {missing}"));
    }
    NOTICE.call_once(|| {
        // Past the test harness, which keeps what `eprintln` writes to itself.
        let _ = writeln!(std::io::stderr(), "only the second book is tested: {missing}");
    });
    Ok(None)
}
