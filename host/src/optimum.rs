//! The cheapest schedule of one node's requests, known only afterwards.

use crate::account::{Mode, Request, Tariff};

/// What the cheapest schedule has paid for one node, by the mode that it is in now.
///
/// Dynamic programming over the requests, carried on request by request.
#[derive(Clone, Copy, PartialEq, Eq, Debug)]
pub struct Optimum {
    log: u64,
    disk: u64,
}

/// More than any schedule pays, and far enough from the end to be added to.
const NOT_REACHED: u64 = u64::MAX / 2;

impl Default for Optimum {
    /// A new node is in log mode.
    fn default() -> Optimum {
        Optimum::from_mode(Mode::Log)
    }
}

impl Optimum {
    /// Begins with a node that is in this mode; the other one costs a switch.
    pub fn from_mode(mode: Mode) -> Optimum {
        match mode {
            Mode::Log => Optimum { log: 0, disk: NOT_REACHED },
            Mode::Disk => Optimum { log: NOT_REACHED, disk: 0 },
        }
    }

    /// Takes one more request: the schedule may switch before it.
    pub fn serve(&mut self, tariff: &Tariff, request: Request) {
        let switch = |mode| u64::from(tariff.switch_to(mode));
        let cost = |mode| u64::from(tariff.cost(mode, request));
        let log = self.log.min(self.disk + switch(Mode::Log)) + cost(Mode::Log);
        let disk = self.disk.min(self.log + switch(Mode::Disk)) + cost(Mode::Disk);
        *self = Optimum { log, disk };
    }

    /// What the cheapest schedule has paid.
    pub fn paid(&self) -> u64 {
        self.log.min(self.disk)
    }
}

#[cfg(test)]
mod tests {
    use super::*;

    /// What one schedule pays for a node that is in a mode `before`; bit i of `modes` is set where request i is served
    /// in disk mode.
    fn pays(tariff: &Tariff, mut before: Mode, requests: &[Request], modes: u32) -> u64 {
        let mut paid = 0;
        for (at, &request) in requests.iter().enumerate() {
            let mode = if modes >> at & 1 == 1 { Mode::Disk } else { Mode::Log };
            if mode != before {
                paid += u64::from(tariff.switch_to(mode));
            }
            paid += u64::from(tariff.cost(mode, request));
            before = mode;
        }
        paid
    }

    #[test]
    fn no_schedule_is_cheaper() {
        let all = [Request::Read, Request::Edit, Request::Rewrite];
        for numbers in [[3, 1, 2, 1, 4, 4, 3, 2], [0, 9, 1, 9, 0, 2, 1, 7], [5, 5, 5, 0, 0, 0, 20, 1]] {
            let tariff = Tariff::from_numbers(numbers).expect("in range");
            for seed in 0..200u32 {
                let requests: Vec<Request> =
                    (0..8).map(|at| all[(seed.wrapping_mul(2_654_435_761) >> (2 * at)) as usize % 3]).collect();
                for mode in [Mode::Log, Mode::Disk] {
                    let mut optimum = Optimum::from_mode(mode);
                    requests.iter().for_each(|&request| optimum.serve(&tariff, request));
                    let cheapest = (0..1 << 8).map(|modes| pays(&tariff, mode, &requests, modes)).min();
                    assert_eq!(Some(optimum.paid()), cheapest);
                }
            }
        }
    }
}
