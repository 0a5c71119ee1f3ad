//! What the lines of a ledger add up to.

use std::collections::BTreeMap;

use super::line::{heading, Line};
use crate::calendar::Day;
use crate::layout::PANELS;

/// Calls, and what they cost.
#[derive(Clone, Copy, PartialEq, Eq, Debug, Default)]
pub(in crate::tool) struct Sum {
    pub calls: usize,
    pub charges: [u128; PANELS],
}

impl Sum {
    fn add(&mut self, line: &Line) {
        self.calls += 1;
        self.charges.iter_mut().zip(line.charges).for_each(|(sum, charge)| *sum += u128::from(charge));
    }

    /// What all panels were charged.
    pub fn charge(&self) -> u128 {
        self.charges.iter().sum()
    }
}

/// The sums of a ledger.
#[derive(Default)]
pub(in crate::tool) struct Sums {
    pub all: Sum,
    pub days: BTreeMap<Day, Sum>,
    pub pools: BTreeMap<String, Sum>,
    /// In how many calls each panel was charged.
    pub calls: [usize; PANELS],
    /// What cannot be read, by line.
    pub wrong: Vec<String>,
}

impl Sums {
    /// Adds up the lines of a ledger. Where two processes began it at once its heading may stand twice.
    pub fn of(text: &str) -> Sums {
        let mut sums = Sums::default();
        let heading = heading();
        let lines = text.lines().enumerate().filter(|(_, line)| !line.is_empty() && *line != heading.trim_end());
        for (at, line) in lines {
            match Line::parse(line) {
                Ok(line) => sums.add(&line),
                Err(why) => sums.wrong.push(format!("line {}: {why}", at + 1)),
            }
        }
        sums
    }

    fn add(&mut self, line: &Line) {
        self.all.add(line);
        self.days.entry(line.day()).or_default().add(line);
        self.pools.entry(line.pool.clone()).or_default().add(line);
        self.calls.iter_mut().zip(line.charges).for_each(|(calls, charge)| *calls += usize::from(charge > 0));
    }

    /// The panels that were ever charged.
    pub fn panels(&self) -> Vec<usize> {
        (0..PANELS).filter(|&panel| self.all.charges[panel] > 0).collect()
    }

    /// The first and the last day of a call.
    pub fn span(&self) -> Option<(Day, Day)> {
        Some((*self.days.keys().next()?, *self.days.keys().next_back()?))
    }
}
