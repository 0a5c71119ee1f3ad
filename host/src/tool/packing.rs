//! An order of puts that leaves the leaves as full as is wished.
//!
//! Puts by ascending keys leave every leaf but the last half full: a leaf that splits keeps twelve keys, and none
//! comes to it again. So the keys are taken in groups, a group for each leaf, and go in by two turns: the first
//! twelve of every group, which makes the leaves, and then the others, for which these have room.

use crate::command::Command;
use crate::layout::LOWER_KEYS;
use crate::node::{Node, Pair};
use crate::tree;

/// The pairs, which ascend, in the order that leaves so many in each leaf: 12 to 24.
pub(super) fn order(pairs: &[Pair], fill: usize) -> Vec<Pair> {
    let cut = |group: &'_ [Pair]| LOWER_KEYS.min(group.len());
    let first = pairs.chunks(fill).flat_map(|group| &group[..cut(group)]);
    let second = pairs.chunks(fill).flat_map(|group| &group[cut(group)..]);
    first.chain(second).copied().collect()
}

/// The tree that puts in this order make of an empty one, whatever a pool's limit is.
pub(super) fn grown(order: &[Pair]) -> Vec<Node> {
    let mut nodes = vec![Node::empty_leaf()];
    let mut steps = Vec::new();
    for pair in order {
        tree::plan(&nodes, usize::MAX, &Command::Put { key: pair.key, value: pair.pointer }, &mut steps);
        steps.drain(..).for_each(|step| tree::apply(&mut nodes, &step));
    }
    nodes
}

#[cfg(test)]
mod tests {
    use super::*;
    use crate::layout::MAX_KEYS;
    use crate::sound;

    fn pairs(count: u32) -> Vec<Pair> {
        (0..count).map(|at| Pair { key: 3 * at, pointer: at }).collect()
    }

    #[test]
    fn leaves_are_as_full_as_is_wished_but_for_the_last() {
        for fill in LOWER_KEYS..=MAX_KEYS {
            let pairs = pairs(1000);
            let nodes = grown(&order(&pairs, fill));
            assert_eq!((tree::pairs(&nodes), sound::check(&nodes)), (pairs, Ok(())));
            let leaves = nodes.iter().filter(|node| node.is_leaf()).count();
            let wished = 1000usize.div_ceil(fill);
            assert!((wished - 1..=wished + 1).contains(&leaves), "{leaves} leaves for {wished}");
            let others = nodes.iter().filter(|node| node.is_leaf() && node.pairs.len() != fill).count();
            assert!(others <= 3, "{others} leaves of another fill than {fill}");
        }
    }

    #[test]
    fn any_count_of_pairs_is_kept() {
        for count in (0..130).chain([600, 601]) {
            let pairs = pairs(count);
            assert_eq!(tree::pairs(&grown(&order(&pairs, 18))), pairs, "{count}");
        }
    }
}
