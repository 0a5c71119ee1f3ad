//! What each node was charged, against the cheapest schedule of its requests.

use super::Tally;
use crate::account::Tariff;
use crate::optimum::Optimum;
use crate::reference::Line;

/// What one node was charged, and what the cheapest schedule would have paid.
#[derive(Clone, Default)]
pub(super) struct NodeCharges {
    charged: u64,
    optimum: Optimum,
}

impl NodeCharges {
    fn serve(&mut self, tariff: &Tariff, line: &Line) {
        self.charged += line.charge;
        self.optimum.serve(tariff, line.request);
    }
}

/// Adds the requests of a batch; each node's charges are at most three times any schedule's and one switch to log.
pub(super) fn check(
    nodes: &mut [NodeCharges],
    tariff: &Tariff,
    lines: &[Line],
    tally: &mut Tally,
) -> Result<(), String> {
    for line in lines {
        nodes[line.id].serve(tariff, line);
    }
    for (id, node) in nodes.iter().enumerate() {
        let (charged, paid) = (node.charged, node.optimum.paid());
        if charged > 3 * paid + u64::from(tariff.to_log) {
            return Err(format!("node {id} was charged {charged}, the optimum is {paid}"));
        }
        if paid > 20 * u64::from(tariff.limit()) {
            tally.worst_ratio = tally.worst_ratio.max(1000 * charged / paid);
        }
    }
    Ok(())
}
