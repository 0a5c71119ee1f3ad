//! Lines of `key,value`, as people have them.

use super::words::number;
use crate::node::Pair;

/// A line for each pair.
pub(super) fn lines(pairs: &[Pair]) -> String {
    pairs.iter().map(|pair| format!("{},{}\n", pair.key, pair.pointer)).collect()
}

/// What a text holds.
#[derive(Clone, PartialEq, Eq, Debug, Default)]
pub(super) struct Table {
    /// The pairs, each with the number of its line.
    pub pairs: Vec<(usize, Pair)>,
    /// The line of the heading, if there is one.
    pub heading: Option<usize>,
}

/// What stands between a key and its value.
const BETWEEN: [char; 3] = [',', ';', '\t'];

/// The pairs of a text; or what is wrong, with line and column.
///
/// What stands behind # is a remark, and lines without anything else are skipped. A first line of two words that are
/// no numbers is a heading. Programs put a byte order mark before the first line and quotes around what they like.
pub(super) fn parse(text: &str) -> Result<Table, String> {
    let mut table = Table::default();
    let text = text.strip_prefix('\u{feff}').unwrap_or(text);
    for (at, line) in text.lines().enumerate() {
        let line = &line[..outside_quotes(line, &['#']).unwrap_or(line.len())];
        if line.trim().is_empty() {
            continue;
        }
        if table == Table::default() && is_heading(line) {
            table.heading = Some(at + 1);
            continue;
        }
        let pair = pair(line).map_err(|(column, why)| format!("line {}, column {column}: {why}", at + 1))?;
        table.pairs.push((at + 1, pair));
    }
    Ok(table)
}

/// Says whether both parts begin with a letter: a number with a slip in it begins with a digit, and is no heading.
fn is_heading(line: &str) -> bool {
    let begins = |part: &str| unquoted(part.trim()).trim_start().starts_with(char::is_alphabetic);
    outside_quotes(line, &BETWEEN).is_some_and(|at| begins(&line[..at]) && begins(&line[at + 1..]))
}

fn pair(line: &str) -> Result<Pair, (usize, String)> {
    let wrong = || (line.trim_end().chars().count() + 1, "a comma or a semicolon expected".to_string());
    let at = outside_quotes(line, &BETWEEN).ok_or_else(wrong)?;
    let (key, value) = (&line[..at], &line[at + 1..]);
    Ok(Pair { key: cell(line, key, "a key")?, pointer: cell(line, value, "a value")? })
}

/// A number that is a part of the line; blanks and quotes around it do not matter.
fn cell(line: &str, part: &str, what: &str) -> Result<u32, (usize, String)> {
    let word = part.trim();
    let wrong = || {
        let before = part.as_ptr() as usize - line.as_ptr() as usize + (part.len() - part.trim_start().len());
        (line[..before].chars().count() + 1, format!("{what} expected, a number below 2^32, not {word:?}"))
    };
    number(unquoted(word).trim()).ok_or_else(wrong)
}

/// A word without the quotes around it.
fn unquoted(word: &str) -> &str {
    word.strip_prefix('"').and_then(|word| word.strip_suffix('"')).unwrap_or(word)
}

/// The first place of one of these characters that no quotes enclose.
fn outside_quotes(line: &str, wanted: &[char]) -> Option<usize> {
    let mut quoted = false;
    for (at, letter) in line.char_indices() {
        quoted ^= letter == '"';
        if !quoted && wanted.contains(&letter) {
            return Some(at);
        }
    }
    None
}

#[cfg(test)]
mod tests {
    use super::*;

    const PAIRS: [(usize, Pair); 2] = [(2, Pair { key: 7, pointer: 100 }), (4, Pair { key: 8, pointer: 255 })];

    #[test]
    fn lines_are_pairs_and_remarks() {
        let text = "# old\n7,100\n\n 0x8 , 0xff # new\r\n# 9,1\n";
        assert_eq!(parse(text), Ok(Table { pairs: PAIRS.to_vec(), heading: None }));
        assert_eq!(parse(&lines(&PAIRS.map(|(_, pair)| pair))).map(|table| table.pairs.len()), Ok(2));
    }

    #[test]
    fn tables_as_programs_write_them() {
        for text in [
            "key,value\n7,100\n\n8,255\n",
            "\u{feff}key,value\r\n7,100\r\n\r\n8,255\r\n",
            "Route;Card word\n7;100\n\n8;255",
            "\"key\",\"value\"\n\"7\",\"100\"\n\n\"0x8\",\"255\"\n",
            "\"route #, or; key\";value # of the wall\n \" 7 \" ; 100\n\n8;0xFF\n",
            "key\tvalue\n7\t100\n\n8\t255\n",
            "\u{feff}\"key\";\"value\"\r\n\"7\";\"100\"\r\n# none\r\n\"8\";\"255\"\r\n",
        ] {
            assert_eq!(parse(text), Ok(Table { pairs: PAIRS.to_vec(), heading: Some(1) }), "{text:?}");
        }
        assert_eq!(parse("\u{feff}").map(|table| table.pairs.len()), Ok(0));
    }

    #[test]
    fn errors_name_line_and_column() {
        for (text, place) in [
            ("7", "line 1, column 2: a comma or a semicolon expected"),
            ("1,2\n7:8", "line 2, column 4: a comma or a semicolon expected"),
            ("x,1", "line 1, column 1: a key expected, a number below 2^32, not \"x\""),
            ("1O,2O", "line 1, column 1: a key expected, a number below 2^32, not \"1O\""),
            ("1,2\nkey,value", "line 2, column 1: a key expected"),
            ("key,value\nkey,value", "line 2, column 1: a key expected"),
            ("  -1,1", "line 1, column 3: a key expected"),
            ("1,", "line 1, column 3: a value expected"),
            ("1, 4294967296", "line 1, column 4: a value expected"),
            ("1,\"2", "line 1, column 3: a value expected, a number below 2^32, not \"\\\"2\""),
            ("1,2\n\n3,4,5", "line 3, column 3: a value expected, a number below 2^32, not \"4,5\""),
            ("\u{e9},1", "line 1, column 1: a key expected"),
            ("1,\u{e9}", "line 1, column 3: a value expected"),
        ] {
            let error = parse(text).expect_err(text);
            assert!(error.starts_with(place), "{text:?}: {error}");
        }
    }
}
