//! Hexadecimal text: what xxd, hexdump and od print, or digits alone.

use crate::wire::from_hex;

/// Longest that lines left out by a star may grow to, so that a slip of a digit does not take the memory.
const MOST_BYTES: usize = 1 << 28;

/// The bytes of a text, or the line that is wrong; none where it is no hexadecimal text at all.
pub(super) fn bytes(raw: &[u8]) -> Option<Result<Vec<u8>, String>> {
    let is_text = raw.iter().all(|byte| matches!(byte, b'\t' | b'\n' | b'\r' | b' '..=b'~'));
    let text = std::str::from_utf8(raw).ok().filter(|_| is_text)?;
    let first = text.lines().map(str::trim_end).find(|line| !line.is_empty())?;
    let numbered = numbered(first);
    row(first, numbered)?;
    Some(joined(text, numbered))
}

/// A line: the place that it says it begins at, and its bytes.
struct Row {
    at: Option<usize>,
    bytes: Vec<u8>,
}

fn joined(text: &str, numbered: bool) -> Result<Vec<u8>, String> {
    let (mut out, mut last, mut base, mut star) = (Vec::new(), Vec::new(), None, false);
    for (line, text) in text.lines().enumerate().filter(|(_, text)| !text.trim().is_empty()) {
        let wrong = |why: &str| format!("line {} of the hexadecimal text {why}", line + 1);
        if text.trim() == "*" {
            star = true;
            continue;
        }
        let row = row(text, numbered).ok_or_else(|| wrong("is none"))?;
        if let Some(at) = row.at {
            let at = at.checked_sub(*base.get_or_insert(at)).ok_or_else(|| wrong("goes back"))?;
            if star {
                fill(&mut out, &last, at).ok_or_else(|| wrong("is too far on"))?;
            }
            if at != out.len() {
                return Err(wrong(&format!("begins at byte {at}, where {} bytes were read", out.len())));
            }
        }
        star = false;
        out.extend(&row.bytes);
        last = row.bytes;
    }
    Ok(out)
}

/// Repeats the last line up to a place, as a star says.
fn fill(out: &mut Vec<u8>, last: &[u8], at: usize) -> Option<()> {
    let more = at.checked_sub(out.len()).filter(|_| at <= MOST_BYTES && !last.is_empty())?;
    out.extend(last.iter().cycle().take(more));
    Some(())
}

/// Says whether lines begin with their place: digits and a colon, or more digits than the groups behind them.
fn numbered(line: &str) -> bool {
    let mut words = line.split('|').next().unwrap_or_default().split_whitespace();
    let Some(first) = words.next() else { return false };
    let mut groups = words.peekable();
    first.ends_with(':') || (first.len() >= 6 && groups.peek().is_some() && groups.all(|group| group.len() <= 4))
}

fn row(line: &str, numbered: bool) -> Option<Row> {
    let line = line.split('|').next().unwrap_or_default().trim();
    if !numbered {
        return Some(Row { at: None, bytes: digits(line)? });
    }
    let (at, rest) = match line.split_once(':') {
        // What xxd shows as characters stands behind two blanks.
        Some((at, rest)) => (at, rest.trim_start().split("  ").next().unwrap_or_default()),
        None => line.split_once(char::is_whitespace).unwrap_or((line, "")),
    };
    Some(Row { at: Some(usize::from_str_radix(at, 16).ok()?), bytes: digits(rest)? })
}

fn digits(text: &str) -> Option<Vec<u8>> {
    from_hex(&text.split_whitespace().collect::<String>())
}

#[cfg(test)]
mod tests {
    use super::*;

    /// Bytes with a run in them that a star leaves out.
    fn sample() -> Vec<u8> {
        let mut bytes = b"A page | of: it".to_vec();
        bytes.resize(64, 0xFF);
        bytes.extend([1, 2, 3, 4]);
        bytes
    }

    #[test]
    fn what_programs_print() {
        let xxd = "00000000: 4120 7061 6765 207c 206f 663a 2069 74ff  A page | of: it.\n\
                   00000010: ffff ffff ffff ffff ffff ffff ffff ffff  ................\n*\n\
                   00000040: 0102 0304                                ....\n";
        let hexdump = "00000000  41 20 70 61 67 65 20 7c  20 6f 66 3a 20 69 74 ff  |A page | of: it.|\n\
                       00000010  ff ff ff ff ff ff ff ff  ff ff ff ff ff ff ff ff  |................|\n*\n\
                       00000040  01 02 03 04                                       |....|\n00000044\n";
        let od = "000000 41 20 70 61 67 65 20 7c 20 6f 66 3a 20 69 74 ff\n\
                  000010 ff ff ff ff ff ff ff ff ff ff ff ff ff ff ff ff\n*\n000040 01 02 03 04\n000044\n";
        let plain = crate::wire::to_hex(&sample());
        let lines: String = plain.as_bytes().chunks(60).map(|line| format!("{}\r\n", line.escape_ascii())).collect();
        let blanks: String = plain.as_bytes().chunks(8).map(|word| format!("{} ", word.escape_ascii())).collect();
        let later = xxd.replace("000000", "000100");
        for text in [xxd, hexdump, od, &plain, &lines, &blanks.to_uppercase(), &later] {
            assert_eq!(bytes(text.as_bytes()), Some(Ok(sample())), "{text}");
        }
    }

    #[test]
    fn what_is_wrong_is_told_with_its_line() {
        for (text, why) in [
            ("00000000: 4120\n00000003: 70\n", "line 2 of the hexadecimal text begins at byte 3, where 2 bytes"),
            ("00000000: 4120\n00000002: 7\n", "line 2 of the hexadecimal text is none"),
            ("00000010: 4120\n00000002: 70\n", "line 2 of the hexadecimal text goes back"),
            ("00000000: 4120\n*\nfffffff0: 70\n", "line 3 of the hexadecimal text is too far on"),
            ("4120\nx\n", "line 2 of the hexadecimal text is none"),
        ] {
            let error = bytes(text.as_bytes()).expect("is text").expect_err(text);
            assert!(error.starts_with(why), "{text}: {error}");
        }
        for none in [&b""[..], b"\n", b"key,value\n7,100\n", b"\x10\x00\x04", b"412\n", b"hello\n"] {
            assert_eq!(bytes(none), None, "{none:?}");
        }
    }
}
