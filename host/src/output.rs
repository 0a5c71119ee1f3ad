//! Standard output, whose reader may leave before the end.

use std::io::{self, ErrorKind, Write};

/// Whether somebody still reads standard output.
#[derive(Clone, Copy, PartialEq, Eq, Debug)]
pub enum Reader {
    Stays,
    /// Whoever closed the pipe has read enough: that is no error.
    Left,
}

/// Writes text at once; an error is said in words.
pub fn say(text: &str) -> Result<Reader, String> {
    let mut out = io::stdout().lock();
    match out.write_all(text.as_bytes()).and_then(|()| out.flush()) {
        Ok(()) => Ok(Reader::Stays),
        Err(error) if error.kind() == ErrorKind::BrokenPipe => Ok(Reader::Left),
        Err(error) => Err(format!("standard output: {error}")),
    }
}

/// Writes text to standard error; where that cannot be done there is nobody left to tell.
pub fn note(text: &str) {
    let _ = io::stderr().lock().write_all(text.as_bytes());
}
