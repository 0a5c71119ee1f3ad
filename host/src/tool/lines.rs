//! Commands as people have them: in words, or in hexadecimal as the documents print it, blanks and all.

use super::words::number;
use crate::command::{encode, Command};
use crate::layout::{MAX_SCAN_PAIRS, PANELS};
use crate::wire::from_hex;

/// How commands are written, for the help of the verbs that take them.
pub(super) const HOW: &str =
    "A command is put KEY VALUE, get KEY, delete KEY, scan LOW HIGH MOST (1 to 32), ceiling KEY or panel N (0 to 15);\n\
     one follows another, or stands behind a comma, a semicolon or on a line of its own. Or their bytes are given in\n\
     hexadecimal, with blanks or without. What stands behind # on a line is a remark, and - is no command at all.";

/// What is written at one place: a command in words, or bytes that the book will judge.
enum Spoken {
    Command(Command),
    Bytes(Vec<u8>),
}

impl Spoken {
    fn bytes(self) -> Vec<u8> {
        match self {
            Spoken::Command(command) => encode(&[command]),
            Spoken::Bytes(bytes) => bytes,
        }
    }
}

/// The bytes of a text's commands, or what is wrong with it.
pub(super) fn batch(text: &str) -> Result<Vec<u8>, String> {
    Ok(spoken(text)?.into_iter().flat_map(Spoken::bytes).collect())
}

/// The bytes of a queue for each panel: a panel in words says whose the commands behind it are.
pub(super) fn queues(text: &str) -> Result<Vec<Vec<u8>>, String> {
    let (mut queues, mut current) = (vec![Vec::new()], 0);
    for spoken in spoken(text)? {
        match spoken {
            Spoken::Command(Command::Panel { panel }) => current = panel,
            spoken => {
                queues.resize_with(queues.len().max(current + 1), Vec::new);
                queues[current].extend(spoken.bytes());
            }
        }
    }
    Ok(queues)
}

/// What a text says, line by line; a text of more than one names the line that is wrong.
fn spoken(text: &str) -> Result<Vec<Spoken>, String> {
    let many = text.lines().nth(1).is_some();
    let mut all = Vec::new();
    for (at, line) in text.lines().enumerate() {
        let line = line.split('#').next().unwrap_or_default();
        for part in line.split([',', ';']) {
            let wrong = |why| if many { format!("line {}: {why}", at + 1) } else { why };
            all.extend(of_part(part).map_err(wrong)?);
        }
    }
    Ok(all)
}

fn of_part(part: &str) -> Result<Vec<Spoken>, String> {
    let mut words = part.split_whitespace().peekable();
    match words.peek() {
        None => Ok(Vec::new()),
        Some(_) if part.trim() == "-" => Ok(Vec::new()),
        Some(word) if is_word(word) => {
            let mut commands = Vec::new();
            while let Some(verb) = words.next() {
                commands.push(Spoken::Command(command(verb, &mut words)?));
            }
            Ok(commands)
        }
        Some(_) => hex(&words.collect::<String>()).map(|bytes| vec![Spoken::Bytes(bytes)]),
    }
}

/// Letters that are not all digits of hexadecimal.
fn is_word(word: &str) -> bool {
    word.chars().all(char::is_alphabetic) && !word.chars().all(|letter| letter.is_ascii_hexdigit())
}

fn command<'a>(verb: &str, words: &mut impl Iterator<Item = &'a str>) -> Result<Command, String> {
    let mut next = |what: &str| {
        let word = words.next().ok_or_else(|| format!("{verb}: {what} expected"))?;
        number(word).ok_or_else(|| format!("{verb}: {what} expected, a number below 2^32, not {word:?}"))
    };
    match verb {
        "get" => Ok(Command::Get { key: next("a key")? }),
        "put" => Ok(Command::Put { key: next("a key")?, value: next("a value")? }),
        "delete" => Ok(Command::Delete { key: next("a key")? }),
        "ceiling" => Ok(Command::Ceiling { key: next("a key")? }),
        "scan" => {
            let (low, high, most) = (next("a lowest key")?, next("a highest key")?, next("how many pairs at most")?);
            let most = within(most, 1..MAX_SCAN_PAIRS + 1, "scan: 1 to 32 pairs at most")?;
            Ok(Command::Scan { low, high, most })
        }
        "panel" => Ok(Command::Panel { panel: within(next("a panel")?, 0..PANELS, "panel: 0 to 15")? }),
        _ => Err(format!("no command is called {verb:?}; there are get, put, delete, scan, ceiling and panel")),
    }
}

fn within(number: u32, range: std::ops::Range<usize>, what: &str) -> Result<usize, String> {
    Some(number as usize)
        .filter(|number| range.contains(number))
        .ok_or_else(|| format!("{what} expected, not {number}"))
}

/// The bytes of digits.
fn hex(digits: &str) -> Result<Vec<u8>, String> {
    from_hex(digits).ok_or_else(|| format!("bytes are pairs of hexadecimal digits, and {}", odd(digits)))
}

/// Why digits are not pairs of hexadecimal ones.
fn odd(digits: &str) -> String {
    match digits.chars().position(|digit| !digit.is_ascii_hexdigit()) {
        Some(at) => format!("character {} is none", at + 1),
        None => format!("{} digits are half a byte too many", digits.len()),
    }
}

#[cfg(test)]
mod tests {
    use super::*;

    #[test]
    fn words_and_bytes_say_the_same() {
        let bytes = from_hex("0200080000000700000064 0100040000000a 0700040000 0008".replace(' ', "").as_str());
        let bytes = bytes.expect("is hexadecimal");
        for text in [
            "put 7 100 get 10 ceiling 8",
            "put 7 100, get 0xA; ceiling 8",
            "# three\nput 7 100\r\n\nget 10 # the second\nceiling 8",
            "02 0008 00000007 00000064\n01 0004 0000000A\n07 0004 00000008",
            "0200080000000700000064 0100040000000a07000400000008",
            "put 7 100\n01 0004 0000000A\nceiling 8",
            "-, put 7 100, 010004 0000000a, -, ceiling 8",
        ] {
            assert_eq!(batch(text).as_ref(), Ok(&bytes), "{text:?}");
        }
        assert_eq!(batch("panel 3 delete 7 scan 1 2 32"), Ok(encode(&THREE)));
        assert_eq!((batch(""), batch("-")), (Ok(Vec::new()), Ok(Vec::new())));
    }

    const THREE: [Command; 3] =
        [Command::Panel { panel: 3 }, Command::Delete { key: 7 }, Command::Scan { low: 1, high: 2, most: 32 }];

    #[test]
    fn a_panel_says_whose_queue_it_is() {
        let [get, put] = [Command::Get { key: 7 }, Command::Put { key: 7, value: 1 }].map(|command| encode(&[command]));
        let three = vec![[get.clone(), put.clone()].concat(), Vec::new(), get.clone()];
        assert_eq!(queues("get 7\npanel 2\nget 7\npanel 0\nput 7 1\npanel 9\n"), Ok(three));
        assert_eq!(queues("panel 1 put 7 1"), Ok(vec![Vec::new(), put]));
        assert_eq!(queues("01000400000007"), Ok(vec![get]));
    }

    #[test]
    fn what_is_wrong_is_said_with_its_line() {
        for (text, why) in [
            ("gett 7", "no command is called \"gett\""),
            ("get", "get: a key expected"),
            ("get seven", "get: a key expected, a number below 2^32, not \"seven\""),
            ("put 7", "put: a value expected"),
            ("get 7 8", "no command is called \"8\""),
            ("scan 1 2", "scan: how many pairs at most expected"),
            ("scan 1 2 0", "scan: 1 to 32 pairs at most expected, not 0"),
            ("scan 1 2 33", "scan: 1 to 32 pairs at most expected, not 33"),
            ("panel 16", "panel: 0 to 15 expected, not 16"),
            ("get 7\nput 8\n", "line 2: put: a value expected"),
            ("0x07", "bytes are pairs of hexadecimal digits, and character 2 is none"),
            ("01 0004 7", "bytes are pairs of hexadecimal digits, and 7 digits are half a byte too many"),
        ] {
            let error = batch(text).expect_err(text);
            assert!(error.starts_with(why), "{text:?}: {error}");
        }
    }
}
