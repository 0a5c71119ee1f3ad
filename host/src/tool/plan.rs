//! The pool that pairs are to be put into: how many blocks it has, and why; and the order of the puts.

use super::packing::{grown, order};
use super::room::room;
use super::words::counted;
use super::Stop;
use crate::layout::{node_limit, MAX_BLOCKS, MIN_BLOCKS};
use crate::node::{Node, Pair};

/// Keys of a leaf: three quarters of the most, or more where that would take more nodes than there are.
const FILLS: [usize; 3] = [18, 21, 24];

/// A pool that is to be made.
#[derive(Debug)]
pub(super) struct Plan {
    pub blocks: usize,
    /// Why it has so many.
    pub why: String,
    /// The pairs in the order in which they are put.
    pub order: Vec<Pair>,
}

impl Plan {
    /// The plan for ascending pairs, in so many blocks or in the fewest that hold them with some room.
    pub fn of(pairs: &[Pair], given: Option<u32>) -> Result<Plan, Stop> {
        // A count that no pool has is the book's to refuse.
        let most = given.map_or(MAX_BLOCKS, |blocks| (blocks as usize).clamp(MIN_BLOCKS, MAX_BLOCKS));
        let mut needed = 0;
        for fill in FILLS {
            let order = order(pairs, fill);
            let nodes = grown(&order);
            if nodes.len() <= node_limit(most) {
                let (blocks, why) = match given {
                    Some(blocks) => (blocks as usize, "as given".to_string()),
                    None => fewest(pairs.len(), &nodes),
                };
                return Ok(Plan { blocks, why, order });
            }
            needed = nodes.len();
        }
        Err(Stop::no(too_many(pairs.len(), needed, most)))
    }
}

/// The fewest blocks with room for a quarter more keys, whatever they are.
fn fewest(pairs: usize, nodes: &[Node]) -> (usize, String) {
    let more = pairs.div_ceil(4);
    let has_room =
        |blocks: &usize| nodes.len() <= node_limit(*blocks) && room(nodes, node_limit(*blocks)).least >= more;
    match (MIN_BLOCKS..=MAX_BLOCKS).find(has_room) {
        Some(blocks) => (blocks, format!("the fewest with room for {} more, whatever they are", counted(more, "key"))),
        None => {
            (MAX_BLOCKS, format!("the most that there are, which may be too few for {}", counted(more, "more key")))
        }
    }
}

fn too_many(pairs: usize, needed: usize, blocks: usize) -> String {
    let hint = match (MIN_BLOCKS..=MAX_BLOCKS).find(|&blocks| needed <= node_limit(blocks)) {
        Some(least) => format!("give {least} blocks or more"),
        None => "no pool has more".to_string(),
    };
    let (pairs, limit) = (counted(pairs, "pair"), node_limit(blocks));
    format!("{pairs} take {needed} nodes, and {blocks} blocks have {limit}; {hint}")
}

#[cfg(test)]
mod tests {
    use super::*;

    fn plan(count: u32, given: Option<u32>) -> Result<Plan, Stop> {
        let pairs: Vec<Pair> = (0..count).map(|key| Pair { key, pointer: 0 }).collect();
        Plan::of(&pairs, given)
    }

    #[test]
    fn the_fewest_blocks_have_room_for_a_quarter_more_and_one_fewer_do_not() {
        for count in [0, 1, 240, 300, 1000, 3000] {
            let Plan { blocks, order, .. } = plan(count, None).expect("a plan");
            let nodes = grown(&order);
            let enough = |blocks: usize| {
                let limit = node_limit(blocks);
                nodes.len() <= limit && room(&nodes, limit).least >= count.div_ceil(4) as usize
            };
            assert!(enough(blocks) && (blocks == MIN_BLOCKS || !enough(blocks - 1)), "{count}: {blocks}");
        }
        assert_eq!(plan(240, None).expect("a plan").blocks, 5, "four blocks were full of them by ascending puts");
    }

    #[test]
    fn leaves_are_fuller_where_blocks_are_few() {
        let leaves = |given: u32| {
            let plan = plan(700, Some(given)).expect("a plan");
            assert_eq!((plan.blocks, plan.why.as_str()), (given as usize, "as given"));
            grown(&plan.order).iter().filter(|node| node.is_leaf()).count()
        };
        assert_eq!((leaves(8), leaves(6)), (39, 34));
        let few = plan(700, Some(4)).expect_err("too many");
        assert!(few.why.contains("700 pairs take 33 nodes, and 4 blocks have 20; give 6 blocks or more"), "{few}");
    }

    #[test]
    fn more_than_any_pool_holds_is_told() {
        assert_eq!(plan(13_000, None).expect("a plan").blocks, MAX_BLOCKS);
        let why = plan(15_000, None).expect_err("too many").why;
        assert!(why.ends_with("64 blocks have 620; no pool has more"), "{why}");
    }
}
