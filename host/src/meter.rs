//! Measures a run: charges against other ways to choose modes, and pages and erases beside them.

use crate::account::{Account, Mode, Request, Tariff};
use crate::mount::Mounted;
use crate::observe::{Event, Observer, State};
use crate::optimum::Optimum;

/// What a run came to.
#[derive(Clone, Debug)]
pub struct Meter {
    tariff: Tariff,
    charge: u64,
    nodes: Vec<Rivals>,
    pages_written: u64,
    pages_copied: u64,
    erases: Vec<u64>,
    switches: u64,
}

/// What others would have paid for one node's requests.
///
/// All begin with the node as it is when the measuring begins, so that none has less to pay for than the optimum.
#[derive(Clone, Debug)]
struct Rivals {
    log: Steady,
    disk: Steady,
    optimum: Optimum,
    listing: Listing,
}

impl Rivals {
    fn of(account: Account) -> Rivals {
        Rivals {
            log: Steady::new(Mode::Log, account.mode),
            disk: Steady::new(Mode::Disk, account.mode),
            optimum: Optimum::from_mode(account.mode),
            listing: Listing { mode: account.mode, counter: account.score.into(), paid: 0, switches: 0 },
        }
    }

    fn serve(&mut self, tariff: &Tariff, request: Request) {
        self.log.serve(tariff, request);
        self.disk.serve(tariff, request);
        self.optimum.serve(tariff, request);
        self.listing.serve(tariff, request);
    }
}

/// The schedule that serves every request in one mode; a node in the other is switched at its first request.
#[derive(Clone, Debug)]
struct Steady {
    wanted: Mode,
    mode: Mode,
    paid: u64,
}

impl Steady {
    fn new(wanted: Mode, mode: Mode) -> Steady {
        Steady { wanted, mode, paid: 0 }
    }

    fn serve(&mut self, tariff: &Tariff, request: Request) {
        if self.mode != self.wanted {
            self.mode = self.wanted;
            self.paid += u64::from(tariff.switch_to(self.mode));
        }
        self.paid += u64::from(tariff.cost(self.mode, request));
    }
}

/// The source's own rule: it serves first and switches afterwards, and its counter has no floor.
#[derive(Clone, Debug)]
struct Listing {
    mode: Mode,
    counter: i64,
    paid: u64,
    switches: u64,
}

impl Listing {
    fn serve(&mut self, tariff: &Tariff, request: Request) {
        let here = tariff.cost(self.mode, request);
        let there = tariff.cost(self.mode.other(), request);
        self.paid += u64::from(here);
        self.counter += i64::from(here) - i64::from(there);
        if self.counter >= i64::from(tariff.limit()) {
            self.mode = self.mode.other();
            self.paid += u64::from(tariff.switch_to(self.mode));
            self.counter = 0;
            self.switches += 1;
        }
    }
}

/// Charges and counts since the measuring began.
#[derive(Clone, Debug)]
pub struct Totals {
    pub charge: u64,
    /// What serving every request in log mode would have paid.
    pub log: u64,
    /// What serving every request in disk mode would have paid.
    pub disk: u64,
    /// What the cheapest schedule would have paid.
    pub optimum: u64,
    /// What the source's own rule would have paid.
    pub listing: u64,
    pub switches: u64,
    pub listing_switches: u64,
    pub pages_written: u64,
    pub pages_copied: u64,
    /// Erases of each block.
    pub erases: Vec<u64>,
}

impl Totals {
    /// Erases of all blocks, of the least erased and of the most erased.
    pub fn erase_spread(&self) -> (u64, u64, u64) {
        let least = self.erases.iter().min().copied().unwrap_or(0);
        let most = self.erases.iter().max().copied().unwrap_or(0);
        (self.erases.iter().sum(), least, most)
    }
}

impl Meter {
    /// Measures from a fresh pool on.
    pub fn new(tariff: Tariff, blocks: usize) -> Meter {
        Meter {
            tariff,
            charge: 0,
            nodes: Vec::new(),
            pages_written: 0,
            pages_copied: 0,
            erases: vec![0; blocks],
            switches: 0,
        }
    }

    /// Measures from a pool on as it is: its nodes have their modes and scores.
    pub fn of_pool(mounted: &Mounted) -> Meter {
        let nodes = mounted.rows.iter().map(|row| Rivals::of(row.account)).collect();
        Meter { nodes, ..Meter::new(mounted.tariff, mounted.written.len()) }
    }

    /// What the run has come to so far.
    pub fn totals(&self) -> Totals {
        let sum = |of: fn(&Rivals) -> u64| self.nodes.iter().map(of).sum();
        Totals {
            charge: self.charge,
            log: sum(|node| node.log.paid),
            disk: sum(|node| node.disk.paid),
            optimum: sum(|node| node.optimum.paid()),
            listing: sum(|node| node.listing.paid),
            switches: self.switches,
            listing_switches: sum(|node| node.listing.switches),
            pages_written: self.pages_written,
            pages_copied: self.pages_copied,
            erases: self.erases.clone(),
        }
    }

    fn request(&mut self, id: usize, request: Request) {
        if self.nodes.len() <= id {
            self.nodes.resize(id + 1, Rivals::of(Account::default()));
        }
        self.nodes[id].serve(&self.tariff, request);
    }
}

impl Observer for Meter {
    fn see(&mut self, event: Event, _: State<'_>) {
        match event {
            Event::PageWritten { .. } => self.pages_written += 1,
            Event::PageCopied { .. } => self.pages_copied += 1,
            Event::BlockErased { block } => self.erases[block] += 1,
            Event::Served { id, request, served } => {
                self.charge += served.charge;
                self.switches += u64::from(served.switched);
                self.request(id, request);
            }
            Event::Created { .. } | Event::WroteWhole { .. } => {}
        }
    }
}

#[cfg(test)]
mod tests {
    use super::*;
    use crate::command::Command;
    use crate::foreign::random_tariff;
    use crate::layout::MIN_BLOCKS;
    use crate::metered::Metered;
    use crate::random::Random;

    /// The book's charge, always log, always disk, the optimum and the listing.
    fn charges(metered: &Metered) -> [u64; 5] {
        let Totals { charge, log, disk, optimum, listing, .. } = metered.meter.totals();
        [charge, log, disk, optimum, listing]
    }

    fn reads(count: usize) -> Vec<Command> {
        vec![Command::Get { key: 1 }; count]
    }

    #[test]
    fn all_begin_in_the_mode_that_a_node_has() {
        let mut metered = Metered::new(MIN_BLOCKS, [3, 1, 2, 1, 4, 4, 3, 2]).expect("a pool");
        metered.run(&reads(3)).expect("fits");
        // The third read switches the node. On disk from the first on: 3 and three reads of 1.
        assert_eq!(charges(&metered), [10, 9, 6, 6, 12]);
        metered.measure_anew().expect("opens");
        assert_eq!(charges(&metered), [0; 5]);
        metered.run(&reads(2)).expect("fits");
        // The node is on disk by now; always log has to fetch it back.
        assert_eq!(charges(&metered), [2, 8, 2, 2, 2]);
    }

    /// Puts, gets and deletes of a few hundred keys, with long runs of one kind.
    fn commands(random: &mut Random) -> Vec<Command> {
        let mut kind = 0;
        let mut one = |_| {
            if random.once_in(20) {
                kind = random.below(4);
            }
            let key = random.below(200) as u32;
            match kind {
                0 | 1 => Command::Put { key, value: random.next_u32() },
                2 => Command::Get { key },
                _ => Command::Delete { key },
            }
        };
        (0..300).map(&mut one).collect()
    }

    #[test]
    fn nobody_pays_less_than_the_optimum() {
        let mut random = Random::new(6);
        for round in 0..200 {
            let mut metered = Metered::new(MIN_BLOCKS, random_tariff(&mut random)).expect("a pool");
            for part in 0..3 {
                metered.run(&commands(&mut random)).expect("fits");
                let charges = charges(&metered);
                assert!(charges.iter().all(|&paid| paid >= charges[3]), "round {round}, part {part}: {charges:?}");
                metered.measure_anew().expect("opens");
            }
        }
    }
}
