//! The desk: up to sixteen queues, served a command of each in turn, as the bytes of one batch.

use std::vec::IntoIter;

use crate::command::{encode, parse, Command};
use crate::layout::PANELS;
use crate::refusal::Refusal;
use crate::wire::NUMBER_BYTES;

/// Queues as a desk is lent them.
#[derive(Clone, PartialEq, Eq, Debug, Default)]
pub struct Queues {
    /// Four bytes a queue, the first panel's first.
    pub lengths: Vec<u8>,
    /// The queues one behind the other.
    pub bytes: Vec<u8>,
}

impl Queues {
    /// Lays queues one behind the other; that of panel 0 is the first.
    pub fn of(queues: &[Vec<u8>]) -> Queues {
        let lengths = queues.iter().flat_map(|queue| (queue.len() as u32).to_be_bytes()).collect();
        Queues { lengths, bytes: queues.concat() }
    }
}

/// The batch that a desk makes of its queues (questions 11 and 3).
pub fn join(lengths: &[u8], queues: &[u8]) -> Result<Vec<u8>, Refusal> {
    let queues = cut(lengths, queues).ok_or(Refusal::QueueLengths)?;
    let commands: Option<Vec<_>> = queues.into_iter().map(queue_commands).collect();
    Ok(encode(&in_turn(commands.ok_or(Refusal::Batch)?)))
}

/// Cuts the queues apart, if there are sixteen at most and they fill their buffer.
fn cut<'a>(lengths: &[u8], queues: &'a [u8]) -> Option<Vec<&'a [u8]>> {
    let (lengths, part) = lengths.as_chunks::<NUMBER_BYTES>();
    if lengths.len() > PANELS || !part.is_empty() {
        return None;
    }
    let mut cut = Vec::new();
    let mut rest = queues;
    for &length in lengths {
        let (queue, after) = rest.split_at_checked(u32::from_be_bytes(length) as usize)?;
        cut.push(queue);
        rest = after;
    }
    rest.is_empty().then_some(cut)
}

/// The commands of a queue, if it is a batch that names no panel: that is for the desk to do.
fn queue_commands(queue: &[u8]) -> Option<IntoIter<Command>> {
    let commands = parse(queue)?;
    let names_one = commands.iter().any(|command| matches!(command, Command::Panel { .. }));
    (!names_one).then(|| commands.into_iter())
}

/// Round by round the next command of each queue that has one, its panel named before it.
fn in_turn(mut queues: Vec<IntoIter<Command>>) -> Vec<Command> {
    let mut served = Vec::new();
    while queues.iter().any(|queue| queue.len() > 0) {
        for (panel, queue) in queues.iter_mut().enumerate() {
            if let Some(command) = queue.next() {
                served.extend([Command::Panel { panel }, command]);
            }
        }
    }
    served
}
