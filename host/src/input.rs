//! What a call reads beside the pool: a batch, or a desk's queues.

use crate::book::{Book, Outcome};
use crate::command::{encode, Command};
use crate::desk::Queues;
use crate::layout::PANELS;

/// The buffers of a call that are only read; they say which of the two calls it is.
#[derive(Clone, PartialEq, Eq, Debug)]
pub enum Input {
    Batch(Vec<u8>),
    Desk(Queues),
}

impl Input {
    /// A batch of these commands.
    pub fn batch(commands: &[Command]) -> Input {
        Input::Batch(encode(commands))
    }

    /// A queue of these commands for each panel from the first on.
    pub fn desk(queues: &[Vec<Command>]) -> Input {
        let queues: Vec<Vec<u8>> = queues.iter().map(|queue| encode(queue)).collect();
        Input::Desk(Queues::of(&queues))
    }

    /// Sixteen queues whose commands are served in the order that they have here.
    pub fn in_queues(commands: &[Command]) -> Input {
        let queue = |panel: usize| commands.iter().skip(panel).step_by(PANELS).copied().collect();
        Input::desk(&std::array::from_fn::<Vec<Command>, PANELS, _>(queue))
    }

    /// The bytes of the commands, in whatever order they are served.
    pub fn command_bytes(&self) -> &[u8] {
        match self {
            Input::Batch(batch) => batch,
            Input::Desk(queues) => &queues.bytes,
        }
    }

    /// Makes the call on a book.
    pub fn run(&self, book: &mut dyn Book, pool: &mut [u8], table: &mut [u8], answers: &mut [u8]) -> Outcome {
        match self {
            Input::Batch(batch) => book.batch(pool, table, batch, answers),
            Input::Desk(Queues { lengths, bytes }) => book.desk(pool, table, lengths, bytes, answers),
        }
    }
}

#[cfg(test)]
mod tests {
    use super::*;
    use crate::command::parse;
    use crate::desk::join;

    #[test]
    fn commands_in_queues_are_served_as_they_stand() {
        for count in [0, 1, 16, 17, 100] {
            let commands: Vec<Command> = (0..count).map(|key| Command::Get { key }).collect();
            let Input::Desk(Queues { lengths, bytes }) = Input::in_queues(&commands) else { panic!("no desk") };
            let joined = parse(&join(&lengths, &bytes).expect("queues")).expect("a batch");
            assert!(joined.into_iter().filter(Command::is_answered).eq(commands));
        }
    }
}
