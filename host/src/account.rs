//! The account of a node: what a request costs, and when the node changes its mode.

use crate::layout::MAX_TARIFF;

/// How a node is stored.
#[derive(Clone, Copy, PartialEq, Eq, Debug, Default)]
pub enum Mode {
    /// As entries on log pages.
    #[default]
    Log,
    /// As one page of its own.
    Disk,
}

impl Mode {
    pub fn other(self) -> Mode {
        match self {
            Mode::Log => Mode::Disk,
            Mode::Disk => Mode::Log,
        }
    }
}

/// What a command asks of a node. A create is no request: it is free.
#[derive(Clone, Copy, PartialEq, Eq, Debug)]
pub enum Request {
    Read,
    Edit,
    Rewrite,
}

/// What the requests cost in one mode.
#[derive(Clone, Copy, PartialEq, Eq, Debug)]
pub struct Costs {
    pub read: u32,
    pub edit: u32,
    pub rewrite: u32,
}

impl Costs {
    fn of(&self, request: Request) -> u32 {
        match request {
            Request::Read => self.read,
            Request::Edit => self.edit,
            Request::Rewrite => self.rewrite,
        }
    }
}

/// The eight numbers that prepare is given.
#[derive(Clone, Copy, PartialEq, Eq, Debug)]
pub struct Tariff {
    pub log: Costs,
    pub disk: Costs,
    pub to_disk: u32,
    pub to_log: u32,
}

impl Tariff {
    /// The tariff of eight numbers in document 01's order, if each is in its range.
    pub fn from_numbers(numbers: [u32; 8]) -> Option<Tariff> {
        let [_, _, _, _, _, _, to_disk, to_log] = numbers;
        let in_range = numbers.iter().all(|&number| number <= MAX_TARIFF) && to_disk > 0 && to_log > 0;
        in_range.then(|| Tariff::unchecked(numbers))
    }

    fn unchecked([lr, le, lw, dr, de, dw, to_disk, to_log]: [u32; 8]) -> Tariff {
        Tariff {
            log: Costs { read: lr, edit: le, rewrite: lw },
            disk: Costs { read: dr, edit: de, rewrite: dw },
            to_disk,
            to_log,
        }
    }

    /// The eight numbers again.
    pub fn numbers(&self) -> [u32; 8] {
        let (log, disk) = (self.log, self.disk);
        [log.read, log.edit, log.rewrite, disk.read, disk.edit, disk.rewrite, self.to_disk, self.to_log]
    }

    /// The limit T that every score stays below.
    pub fn limit(&self) -> u32 {
        self.to_disk + self.to_log
    }

    /// What a request costs in a mode.
    pub fn cost(&self, mode: Mode, request: Request) -> u32 {
        match mode {
            Mode::Log => self.log.of(request),
            Mode::Disk => self.disk.of(request),
        }
    }

    /// What it costs to switch into a mode.
    pub fn switch_to(&self, mode: Mode) -> u32 {
        match mode {
            Mode::Log => self.to_log,
            Mode::Disk => self.to_disk,
        }
    }
}

/// A node's mode and score; a new node is in log mode with score 0.
#[derive(Clone, Copy, PartialEq, Eq, Debug, Default)]
pub struct Account {
    pub mode: Mode,
    pub score: u32,
}

/// What serving one request came to.
#[derive(Clone, Copy, PartialEq, Eq, Debug)]
pub struct Served {
    /// The account afterwards.
    pub account: Account,
    /// What was charged, a switch included.
    pub charge: u64,
    /// Whether the node switched before the request.
    pub switched: bool,
}

impl Account {
    /// Serves a request: the node switches first where its score reaches the limit.
    pub fn serve(self, tariff: &Tariff, request: Request) -> Served {
        let here = tariff.cost(self.mode, request);
        let there = tariff.cost(self.mode.other(), request);
        // Costs and scores are at most 3,000,000 together, so the sum is far below 32 bits.
        let score = (self.score + here).saturating_sub(there);
        if score >= tariff.limit() {
            let mode = self.mode.other();
            let charge = u64::from(tariff.switch_to(mode)) + u64::from(there);
            Served { account: Account { mode, score: 0 }, charge, switched: true }
        } else {
            Served { account: Account { score, ..self }, charge: u64::from(here), switched: false }
        }
    }
}

#[cfg(test)]
mod tests {
    use super::*;
    use Request::{Edit, Read};

    const WORKED: [u32; 8] = [3, 1, 2, 1, 4, 4, 3, 2];

    /// Serves requests in turn and gives the charges, the scores and the last mode.
    fn serve_all(mut account: Account, requests: &[Request]) -> (Vec<u64>, Vec<u32>, Mode) {
        let tariff = Tariff::from_numbers(WORKED).expect("in range");
        let (mut charges, mut scores) = (Vec::new(), Vec::new());
        for &request in requests {
            let served = account.serve(&tariff, request);
            account = served.account;
            charges.push(served.charge);
            scores.push(account.score);
        }
        (charges, scores, account.mode)
    }

    #[test]
    fn three_reads_of_a_log_node() {
        let (charges, scores, mode) = serve_all(Account::default(), &[Read, Read, Read]);
        assert_eq!((charges, scores[2], mode), (vec![3, 3, 4], 0, Mode::Disk));
    }

    #[test]
    fn read_read_edit_read() {
        let (charges, scores, _) = serve_all(Account::default(), &[Read, Read, Edit, Read]);
        assert_eq!((charges.iter().sum::<u64>(), scores), (10, vec![2, 4, 1, 3]));
    }

    #[test]
    fn two_edits_of_a_disk_node() {
        let (charges, _, mode) = serve_all(Account { mode: Mode::Disk, score: 0 }, &[Edit, Edit]);
        assert_eq!((charges, mode), (vec![4, 3], Mode::Log));
    }

    #[test]
    fn an_edit_at_score_zero_has_a_floor() {
        assert_eq!(serve_all(Account::default(), &[Edit]).1, vec![0]);
    }

    #[test]
    fn ranges_of_the_tariff() {
        let with = |at: usize, number: u32| {
            let mut numbers = WORKED;
            numbers[at] = number;
            Tariff::from_numbers(numbers).is_some()
        };
        for at in 0..8 {
            assert_eq!(with(at, 0), at < 6);
            assert!(with(at, MAX_TARIFF));
            assert!(!with(at, MAX_TARIFF + 1));
        }
    }
}
