//! Commands distributed to the queues of a desk, and queues that it refuses.

use super::call::random_nonsense;
use crate::command::{encode, Command};
use crate::desk::Queues;
use crate::input::Input;
use crate::layout::{MAX_BATCH_BYTES, PANELS};
use crate::random::Random;
use crate::wire::NUMBER_BYTES;

/// Commands as a batch, or distributed to queues.
pub(super) fn batch_or_desk(random: &mut Random, commands: &[Command]) -> Input {
    match random.once_in(2) {
        true => Input::batch(commands),
        false => Input::desk(&distribute(random, commands)),
    }
}

/// Distributes commands to 1 to 16 queues, as many as a desk can join; a panel is left out.
pub(super) fn distribute(random: &mut Random, commands: &[Command]) -> Vec<Vec<Command>> {
    let commands = joinable(commands);
    let any = random.between(1, PANELS);
    let mut queues = vec![Vec::new(); random.pick(&[1, 2, any, any, PANELS])];
    let (way, some) = (random.below(4), random.below(PANELS));
    for (at, command) in commands.iter().enumerate() {
        let queue = match way {
            0 => at % queues.len(),
            1 => at * queues.len() / commands.len(),
            2 => random.below(queues.len()),
            // To some queues alone: the others stay empty.
            _ => random.below(queues.len()) & some,
        };
        queues[queue].push(*command);
    }
    queues
}

/// The commands that name no panel, as many as are within a batch with a panel before each.
fn joinable(commands: &[Command]) -> Vec<Command> {
    let mut room = MAX_BATCH_BYTES;
    let fits = |command: &Command| {
        let bytes = encode(&[Command::Panel { panel: 0 }, *command]).len();
        let fits = bytes <= room;
        room = room.saturating_sub(bytes);
        fits
    };
    commands.iter().copied().filter(Command::is_answered).take_while(fits).collect()
}

/// Queues that are valid, a command in the first of them at least.
fn good_queues(random: &mut Random) -> Vec<Vec<u8>> {
    let commands = [Command::Get { key: 1 }, Command::Put { key: 2, value: 3 }, Command::Get { key: 4 }];
    let mut queues: Vec<Vec<u8>> = distribute(random, &commands).iter().map(|queue| encode(queue)).collect();
    if queues[0].is_empty() {
        queues[0] = encode(&commands);
    }
    queues
}

/// Queues of the right lengths that are no batches by themselves, name a panel, or are too long together (question 3).
pub(super) fn wrong_queues(random: &mut Random) -> Queues {
    let mut queues = good_queues(random);
    let at = random.below(queues.len());
    match random.below(5) {
        0 => queues[at] = random_nonsense(random),
        1 => queues[at].extend(encode(&[Command::Panel { panel: random.below(PANELS) }])),
        2 => queues[0].splice(0..0, encode(&[Command::Panel { panel: 0 }])).for_each(drop),
        // The last bytes of a command are another queue's.
        3 => {
            let end = queues[0].len() - random.between(1, 6);
            let last = queues[0].split_off(end);
            queues.insert(1, last);
            queues.truncate(PANELS);
        }
        _ => queues = one_command_too_many(random),
    }
    Queues::of(&queues)
}

/// Queues that a desk could join but for one of their commands.
fn one_command_too_many(random: &mut Random) -> Vec<Vec<u8>> {
    let get = Command::Get { key: random.next_u32() };
    let mut queues = distribute(random, &[get; MAX_BATCH_BYTES / 7]);
    let at = random.below(queues.len());
    queues[at].push(get);
    queues.iter().map(|queue| encode(queue)).collect()
}

/// Lengths that are more than sixteen, or part of one, or do not fill the queues (question 11).
pub(super) fn wrong_lengths(random: &mut Random) -> Queues {
    let mut queues = good_queues(random);
    if random.once_in(2) {
        // The lengths are asked for first.
        queues[0] = random_nonsense(random);
    }
    let mut queues = Queues::of(&queues);
    let Queues { lengths, bytes } = &mut queues;
    match random.below(6) {
        0 => lengths.resize(NUMBER_BYTES * random.pick(&[PANELS + 1, PANELS + 2, 2 * PANELS, 256]), 0),
        1 => lengths.extend(vec![0; random.between(1, NUMBER_BYTES - 1)]),
        2 => lengths[NUMBER_BYTES - 1] ^= random.between(1, 0xFF) as u8,
        3 => lengths[random.below(NUMBER_BYTES - 1)] ^= random.between(1, 0xFF) as u8,
        4 => bytes.extend(vec![1; random.between(1, 7)]),
        // As much as is there, and 2^32 more.
        _ => *lengths = [u32::MAX, bytes.len() as u32 + 1].map(u32::to_be_bytes).concat(),
    }
    queues
}
