//! The reference model of "What demand 3 compares": document 01's paper book.
//!
//! It never sees a page. Shared with the book are the commands, the tree over a table of nodes
//! (`tree::plan`) and the account of a node; pages, versions, allocation and mounting are not.

mod ceilings;
mod turns;

pub use ceilings::Ceilings;
pub use turns::in_turns;

use crate::account::{Account, Request, Tariff};
use crate::command::{Answer, Command};
use crate::layout::PANELS;
use crate::node::Node;
use crate::tree::{self, Step};

/// Tree, modes and scores.
#[derive(Clone, PartialEq, Eq, Debug)]
pub struct PaperBook {
    pub limit: usize,
    pub tariff: Tariff,
    /// Nodes and their accounts, by id.
    pub nodes: Vec<Node>,
    pub accounts: Vec<Account>,
}

/// One node request as the paper book served it.
#[derive(Clone, Copy, PartialEq, Eq, Debug)]
pub struct Line {
    pub id: usize,
    pub request: Request,
    /// The account after it.
    pub account: Account,
    pub charge: u64,
    /// Nodes that exist by then.
    pub count: usize,
}

/// What an accepted batch comes to.
#[derive(Clone, PartialEq, Eq, Debug, Default)]
pub struct Run {
    pub answers: Vec<Answer>,
    /// What each panel is charged.
    pub charges: [u64; PANELS],
    pub lines: Vec<Line>,
    /// Puts refused although some ids were unused, only too few.
    pub too_few_ids: u64,
    pub ceilings: Ceilings,
}

impl PaperBook {
    /// The paper book of a fresh pool: one empty leaf.
    pub fn prepared(limit: usize, tariff: Tariff) -> PaperBook {
        PaperBook { limit, tariff, nodes: vec![Node::empty_leaf()], accounts: vec![Account::default()] }
    }

    /// Runs an accepted batch, or the joined commands of a desk. A refused call changes nothing and is not fed.
    pub fn batch(&mut self, commands: &[Command]) -> Run {
        let mut run = Run::default();
        let mut steps = Vec::new();
        for (panel, command) in by_panel(commands) {
            let answer = tree::plan(&self.nodes, self.limit, command, &mut steps);
            run.too_few_ids += u64::from(matches!(answer, Some(Answer::Refused(_))) && self.nodes.len() < self.limit);
            if let Command::Ceiling { key } = *command {
                run.ceilings.count(key, answer.as_ref(), &steps, &self.nodes);
            }
            run.answers.extend(answer);
            for step in steps.drain(..) {
                if let Some(line) = self.step(&step) {
                    run.charges[panel] += line.charge;
                    run.lines.push(line);
                }
            }
        }
        run
    }

    fn step(&mut self, step: &Step) -> Option<Line> {
        tree::apply(&mut self.nodes, step);
        let Some(request) = step.work.request() else {
            self.accounts.push(Account::default());
            return None;
        };
        let served = self.accounts[step.id].serve(&self.tariff, request);
        self.accounts[step.id] = served.account;
        Some(Line { id: step.id, request, account: served.account, charge: served.charge, count: self.nodes.len() })
    }
}

/// Each command with the current panel, which is 0 at first.
pub fn by_panel(commands: &[Command]) -> impl Iterator<Item = (usize, &Command)> {
    commands.iter().scan(0, |current, command| {
        if let Command::Panel { panel } = command {
            *current = *panel;
        }
        Some((*current, command))
    })
}
