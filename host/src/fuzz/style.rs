//! How a case chooses its commands.

use crate::random::Random;

/// The keys, the shares of the commands, how often a panel is named, and the length of batches.
pub(super) struct CommandStyle {
    pub keys: Keys,
    /// Shares of gets, puts, deletes, scans and ceilings.
    pub shares: [usize; 5],
    /// One command in so many names a panel.
    pub turns: usize,
    pub longest: usize,
    /// Whether the values of puts are almost the greatest.
    pub high_values: bool,
}

#[derive(Clone, Copy)]
pub(super) enum Keys {
    Ascending {
        step: u32,
    },
    Descending,
    Below(u32),
    /// A few clusters of near keys.
    Clusters,
    /// So many of the greatest keys.
    Last(u32),
}

impl CommandStyle {
    pub fn random(random: &mut Random) -> CommandStyle {
        let keys = match random.below(7) {
            0 => Keys::Ascending { step: random.pick(&[1, 7, 1000]) },
            1 => Keys::Descending,
            2 => Keys::Below(random.pick(&[30, 300, 3000])),
            3 => Keys::Below(20_000),
            4 => Keys::Clusters,
            5 => Keys::Last(random.pick(&[30, 300, 3000])),
            _ => Keys::Below(u32::MAX),
        };
        let shares = random.pick(&[
            [1, 8, 1, 1, 1],
            [1, 3, 3, 1, 1],
            [8, 2, 1, 1, 1],
            [0, 1, 0, 0, 0],
            [2, 2, 2, 4, 1],
            [1, 5, 4, 0, 0],
            [9, 1, 0, 0, 0],
            [0, 2, 4, 0, 4],
        ]);
        let turns = random.pick(&[2, 6, 30]);
        let longest = random.pick(&[3, 40, 300, 300, 1200]);
        CommandStyle { keys, shares, turns, longest, high_values: random.once_in(4) }
    }

    /// Puts alone but for panels, in long batches, of the same keys.
    pub fn only_puts(&self) -> CommandStyle {
        CommandStyle { shares: [0, 1, 0, 0, 0], longest: 1200, ..*self }
    }

    /// The same commands, but of the greatest keys and values.
    pub fn high(self) -> CommandStyle {
        CommandStyle { keys: Keys::Last(300), high_values: true, ..self }
    }

    /// The key of the put that comes at this place, or one like it.
    pub fn key(&self, random: &mut Random, at: u32) -> u32 {
        match self.keys {
            Keys::Ascending { step } => at.wrapping_mul(step),
            Keys::Descending => u32::MAX.wrapping_sub(at),
            Keys::Below(end) => random.next_u32() % end,
            Keys::Last(count) => u32::MAX - random.next_u32() % count,
            Keys::Clusters => (random.next_u32() % 5 * 0x2000_0000).wrapping_add(random.next_u32() % 300),
        }
    }

    pub fn value(&self, random: &mut Random) -> u32 {
        random.next_u32() | if self.high_values { 0xFFFF_FFF0 } else { 0 }
    }

    /// Which of the shares a number below their sum falls into.
    pub fn share_of(&self, mut number: usize) -> Option<usize> {
        self.shares.iter().position(|&share| {
            let here = number < share;
            number = number.wrapping_sub(share);
            here
        })
    }
}
