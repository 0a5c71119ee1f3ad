//! The order in which a desk serves, another way than the book has it: every command's turn is known from its place.

use crate::command::Command;

/// The commands of queues by round and then by panel, the panel named before each.
pub fn in_turns(queues: &[Vec<Command>]) -> Vec<Command> {
    let turns_of = |(panel, queue): (usize, &Vec<Command>)| {
        queue.iter().enumerate().map(|(round, &command)| (round, panel, command)).collect::<Vec<_>>()
    };
    let mut turns: Vec<(usize, usize, Command)> = queues.iter().enumerate().flat_map(turns_of).collect();
    turns.sort_by_key(|&(round, panel, _)| (round, panel));
    turns.into_iter().flat_map(|(_, panel, command)| [Command::Panel { panel }, command]).collect()
}
