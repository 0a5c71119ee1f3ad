//! Commands of a batch and their answers.

use crate::layout::{MAX_BATCH_BYTES, MAX_SCAN_PAIRS, PANELS};
use crate::node::Pair;
use crate::wire::{
    next_field, put_head, Field, Numbers, FIELD_HEAD, NUMBER_BYTES, PAIR_BYTES, PANEL_BYTES, SCAN_BYTES,
};
use crate::wire::{TAG_CEILING, TAG_DELETE, TAG_GET, TAG_PANEL, TAG_PUT, TAG_SCAN};

const TAG_ABSENT: u8 = 0x80;
const TAG_GOT: u8 = 0x81;
const TAG_REPLACED: u8 = 0x82;
const TAG_DELETED: u8 = 0x83;
const TAG_PAIRS: u8 = 0x84;
const TAG_CEILING_PAIR: u8 = 0x87;
const TAG_REFUSED: u8 = 0x8F;

/// A command: look up, hang, strip and sweep of document 01; and of document 02 the naming of the current panel,
/// which is charged for the commands behind it, and the next route up: the key or the nearest above it.
#[derive(Clone, Copy, PartialEq, Eq, Debug)]
pub enum Command {
    Get { key: u32 },
    Put { key: u32, value: u32 },
    Delete { key: u32 },
    Scan { low: u32, high: u32, most: usize },
    Panel { panel: usize },
    Ceiling { key: u32 },
}

/// Reads a batch, if it is within its length and made wholly of valid commands (question 3).
pub fn parse(batch: &[u8]) -> Option<Vec<Command>> {
    if batch.len() > MAX_BATCH_BYTES {
        return None;
    }
    let mut commands = Vec::new();
    let mut rest = batch;
    while !rest.is_empty() {
        let (field, after) = next_field(rest)?;
        commands.push(Command::from_field(field)?);
        rest = after;
    }
    Some(commands)
}

/// The answer bytes that a batch needs at most (question 4).
pub fn answer_room(commands: &[Command]) -> usize {
    commands.iter().map(Command::answer_room).sum()
}

/// The bytes of a batch of these commands.
pub fn encode(commands: &[Command]) -> Vec<u8> {
    let mut out = Vec::new();
    for command in commands {
        command.encode(&mut out);
    }
    out
}

impl Command {
    fn from_field(field: Field<'_>) -> Option<Command> {
        let mut numbers = Numbers(field.payload);
        match field.tag {
            TAG_GET => Some(Command::Get { key: numbers.u32() }),
            TAG_PUT => Some(Command::Put { key: numbers.u32(), value: numbers.u32() }),
            TAG_DELETE => Some(Command::Delete { key: numbers.u32() }),
            TAG_SCAN => {
                let (low, high, most) = (numbers.u32(), numbers.u32(), usize::from(numbers.u16()));
                (1..=MAX_SCAN_PAIRS).contains(&most).then_some(Command::Scan { low, high, most })
            }
            TAG_PANEL => {
                let panel = usize::from(numbers.u8());
                (panel < PANELS).then_some(Command::Panel { panel })
            }
            TAG_CEILING => Some(Command::Ceiling { key: numbers.u32() }),
            _ => None,
        }
    }

    /// Says whether it has an answer: each has one but the panel.
    pub fn is_answered(&self) -> bool {
        !matches!(self, Command::Panel { .. })
    }

    fn answer_room(&self) -> usize {
        match *self {
            Command::Panel { .. } => 0,
            Command::Scan { most, .. } => FIELD_HEAD + PAIR_BYTES * most,
            Command::Ceiling { .. } => FIELD_HEAD + PAIR_BYTES,
            _ => FIELD_HEAD + NUMBER_BYTES,
        }
    }

    fn encode(&self, out: &mut Vec<u8>) {
        match *self {
            Command::Get { key } => put_numbers(out, TAG_GET, &[key]),
            Command::Put { key, value } => put_numbers(out, TAG_PUT, &[key, value]),
            Command::Delete { key } => put_numbers(out, TAG_DELETE, &[key]),
            Command::Scan { low, high, most } => {
                put_head(out, TAG_SCAN, SCAN_BYTES);
                out.extend(low.to_be_bytes());
                out.extend(high.to_be_bytes());
                out.extend((most as u16).to_be_bytes());
            }
            Command::Panel { panel } => {
                put_head(out, TAG_PANEL, PANEL_BYTES);
                out.push(panel as u8);
            }
            Command::Ceiling { key } => put_numbers(out, TAG_CEILING, &[key]),
        }
    }
}

/// An answer to one command.
#[derive(Clone, PartialEq, Eq, Debug)]
pub enum Answer {
    /// No such key; for a put, that it was not there before; for a ceiling, that none is at or above.
    Absent,
    Got(u32),
    Replaced(u32),
    Deleted(u32),
    Pairs(Vec<Pair>),
    Ceiling(Pair),
    Refused(u8),
}

impl Answer {
    /// Lays the answer behind `out`.
    pub fn encode(&self, out: &mut Vec<u8>) {
        match self {
            Answer::Absent => put_numbers(out, TAG_ABSENT, &[]),
            Answer::Got(value) => put_numbers(out, TAG_GOT, &[*value]),
            Answer::Replaced(value) => put_numbers(out, TAG_REPLACED, &[*value]),
            Answer::Deleted(value) => put_numbers(out, TAG_DELETED, &[*value]),
            Answer::Pairs(pairs) => {
                put_head(out, TAG_PAIRS, PAIR_BYTES * pairs.len());
                for pair in pairs {
                    out.extend(pair.key.to_be_bytes());
                    out.extend(pair.pointer.to_be_bytes());
                }
            }
            Answer::Ceiling(pair) => put_numbers(out, TAG_CEILING_PAIR, &[pair.key, pair.pointer]),
            Answer::Refused(number) => out.extend([TAG_REFUSED, 0, 1, *number]),
        }
    }

    /// Reads one answer as [`split_answers`] cuts it out; nothing if it is none.
    fn from_piece(piece: &[u8]) -> Option<Answer> {
        let (&[tag, ..], payload) = piece.split_first_chunk::<FIELD_HEAD>()?;
        let value = || payload.try_into().ok().map(u32::from_be_bytes);
        match tag {
            TAG_ABSENT => payload.is_empty().then_some(Answer::Absent),
            TAG_GOT => value().map(Answer::Got),
            TAG_REPLACED => value().map(Answer::Replaced),
            TAG_DELETED => value().map(Answer::Deleted),
            TAG_PAIRS => pairs_of(payload).map(Answer::Pairs),
            TAG_CEILING_PAIR => <[Pair; 1]>::try_from(pairs_of(payload)?).ok().map(|[pair]| Answer::Ceiling(pair)),
            TAG_REFUSED => <[u8; 1]>::try_from(payload).ok().map(|[number]| Answer::Refused(number)),
            _ => None,
        }
    }
}

/// Reads pairs one behind the other; nothing if they are not whole pairs.
fn pairs_of(payload: &[u8]) -> Option<Vec<Pair>> {
    let (pairs, rest) = payload.as_chunks::<PAIR_BYTES>();
    let pair = |mut numbers: Numbers<'_>| Pair { key: numbers.u32(), pointer: numbers.u32() };
    rest.is_empty().then(|| pairs.iter().map(|bytes| pair(Numbers(bytes))).collect())
}

/// Reads answers one behind the other; nothing if they are not whole answers.
pub fn parse_answers(bytes: &[u8]) -> Option<Vec<Answer>> {
    split_answers(bytes)?.into_iter().map(Answer::from_piece).collect()
}

/// Lays a field whose payload is numbers of four bytes.
fn put_numbers(out: &mut Vec<u8>, tag: u8, numbers: &[u32]) {
    put_head(out, tag, NUMBER_BYTES * numbers.len());
    for number in numbers {
        out.extend(number.to_be_bytes());
    }
}

/// The bytes of answers one behind the other.
pub fn encode_answers(answers: &[Answer]) -> Vec<u8> {
    let mut out = Vec::new();
    for answer in answers {
        answer.encode(&mut out);
    }
    out
}

/// Cuts answer bytes into one piece an answer, for printing; nothing if they are not whole answers.
pub fn split_answers(bytes: &[u8]) -> Option<Vec<&[u8]>> {
    let mut pieces = Vec::new();
    let mut rest = bytes;
    while !rest.is_empty() {
        let &[_, high, low] = rest.first_chunk::<FIELD_HEAD>()?;
        let end = FIELD_HEAD + usize::from(u16::from_be_bytes([high, low]));
        let (piece, after) = rest.split_at_checked(end)?;
        pieces.push(piece);
        rest = after;
    }
    Some(pieces)
}

#[cfg(test)]
mod tests {
    use super::*;

    #[test]
    fn commands_go_both_ways() {
        let commands = vec![
            Command::Get { key: 7 },
            Command::Put { key: 1, value: 0xFFFF_FFFF },
            Command::Delete { key: 0x0102_0304 },
            Command::Scan { low: 9, high: 3, most: 32 },
            Command::Panel { panel: 15 },
            Command::Ceiling { key: 0xFFFF_FFFF },
        ];
        assert_eq!(parse(&encode(&commands)), Some(commands.clone()));
        assert_eq!(answer_room(&commands), 7 + 7 + 7 + 3 + 8 * 32 + 11);
    }

    #[test]
    fn answers_go_both_ways() {
        let answers = vec![
            Answer::Absent,
            Answer::Got(1),
            Answer::Replaced(u32::MAX),
            Answer::Deleted(0),
            Answer::Pairs(vec![]),
            Answer::Pairs(vec![Pair { key: 3, pointer: 4 }, Pair { key: 5, pointer: 6 }]),
            Answer::Ceiling(Pair { key: u32::MAX, pointer: 1 }),
            Answer::Refused(9),
        ];
        assert_eq!(parse_answers(&encode_answers(&answers)), Some(answers));
        for wrong in [
            &[0x81, 0, 3, 1, 2, 3][..],
            &[0x80, 0, 1, 0],
            &[0x84, 0, 7, 0, 0, 0, 0, 0, 0, 0],
            &[0x85, 0, 0],
            &[0x87, 0, 0],
            &[0x87, 0, 9, 0, 0, 0, 0, 0, 0, 0, 0, 0],
            &[0x87, 0, 16, 0, 0, 0, 0, 0, 0, 0, 0, 0, 0, 0, 0, 0, 0, 0, 0],
        ] {
            assert_eq!(parse_answers(wrong), None, "{wrong:?}");
        }
    }

    #[test]
    fn what_is_no_batch() {
        let scan = |most| encode(&[Command::Scan { low: 0, high: 1, most }]);
        assert!(parse(&scan(0)).is_none());
        assert!(parse(&scan(1)).is_some());
        assert!(parse(&scan(MAX_SCAN_PAIRS)).is_some());
        assert!(parse(&scan(MAX_SCAN_PAIRS + 1)).is_none());
        assert!(parse(&[0x10, 0, 4, 0, 0, 0, 1]).is_none(), "a page field is no command");
        assert!(parse(&[0x00, 0, 0]).is_none(), "a tag of nothing");
        assert!(parse(&[0x01]).is_none());
        let panel = |panel| encode(&[Command::Panel { panel }]);
        assert!(parse(&panel(PANELS - 1)).is_some());
        assert!(parse(&panel(PANELS)).is_none());
        assert!(parse(&[0x07, 0, 4, 0, 0, 0, 1]).is_some());
        for wrong in [&[0x07, 0, 0][..], &[0x07, 0, 3, 0, 0, 1], &[0x06, 0, 4, 0, 0, 0, 1], &[0x08, 0, 0]] {
            assert!(parse(wrong).is_none(), "{wrong:?}");
        }
        let longest = vec![Command::Get { key: 0 }; MAX_BATCH_BYTES / 7];
        assert!(parse(&encode(&longest)).is_some());
        let too_long = vec![Command::Get { key: 0 }; MAX_BATCH_BYTES / 7 + 1];
        assert!(parse(&encode(&too_long)).is_none());
    }
}
