//! The tree over a table of nodes, indexed by id: what a command asks of which node.
//!
//! Nothing here knows of pages, modes or charges.

use crate::account::Request;
use crate::command::{Answer, Command};
use crate::layout::NO_LINK;
use crate::node::{Change, Halves, Node, Pair, Shape};

/// The root's id.
pub const ROOT: usize = 0;

/// The number of the one refusal inside a batch: not enough node ids for a put.
pub const IDS_USED_UP: u8 = 9;

/// One thing that a command does to one node.
#[derive(Clone, PartialEq, Eq, Debug)]
pub struct Step {
    pub id: usize,
    pub work: Work,
}

#[derive(Clone, PartialEq, Eq, Debug)]
pub enum Work {
    Read,
    Edit(Change),
    Rewrite(Node),
    /// A new node; its id is the next one.
    Create(Node),
}

impl Work {
    /// The node request that is charged for, if it is one.
    pub fn request(&self) -> Option<Request> {
        match self {
            Work::Read => Some(Request::Read),
            Work::Edit(_) => Some(Request::Edit),
            Work::Rewrite(_) => Some(Request::Rewrite),
            Work::Create(_) => None,
        }
    }
}

/// Puts the steps of a command behind `steps`, in order, and gives its answer; a panel has neither.
pub fn plan(nodes: &[Node], limit: usize, command: &Command, steps: &mut Vec<Step>) -> Option<Answer> {
    Some(match *command {
        Command::Get { key } => plan_get(nodes, key, steps),
        Command::Put { key, value } => plan_put(nodes, limit, Pair { key, pointer: value }, steps),
        Command::Delete { key } => plan_delete(nodes, key, steps),
        Command::Scan { low, high, .. } if low > high => Answer::Pairs(Vec::new()),
        Command::Scan { low, high, most } => Answer::Pairs(plan_scan(nodes, low, high, most, steps)),
        Command::Ceiling { key } => plan_ceiling(nodes, key, steps),
        Command::Panel { .. } => return None,
    })
}

fn plan_get(nodes: &[Node], key: u32, steps: &mut Vec<Step>) -> Answer {
    let leaf = &nodes[read_down(nodes, key, steps)];
    match leaf.find(key) {
        Ok(at) => Answer::Got(leaf.pairs[at].pointer),
        Err(_) => Answer::Absent,
    }
}

fn plan_delete(nodes: &[Node], key: u32, steps: &mut Vec<Step>) -> Answer {
    let id = read_down(nodes, key, steps);
    match nodes[id].find(key) {
        Ok(at) => {
            steps.push(Step { id, work: Work::Edit(Change::Delete { key }) });
            Answer::Deleted(nodes[id].pairs[at].pointer)
        }
        Err(_) => Answer::Absent,
    }
}

/// Reads leaf after leaf, and stops at the first key above `high` or at `most` pairs.
fn plan_scan(nodes: &[Node], low: u32, high: u32, most: usize, steps: &mut Vec<Step>) -> Vec<Pair> {
    let mut found = Vec::new();
    let mut id = read_down(nodes, low, steps);
    'leaves: loop {
        for pair in nodes[id].pairs.iter().filter(|pair| pair.key >= low) {
            if pair.key > high {
                break 'leaves;
            }
            found.push(*pair);
            if found.len() == most {
                break 'leaves;
            }
        }
        if nodes[id].link == NO_LINK {
            break;
        }
        id = nodes[id].link as usize;
        steps.push(Step { id, work: Work::Read });
    }
    found
}

/// Reads as a scan for one pair from the key on, with no end.
fn plan_ceiling(nodes: &[Node], key: u32, steps: &mut Vec<Step>) -> Answer {
    plan_scan(nodes, key, u32::MAX, 1, steps).pop().map_or(Answer::Absent, Answer::Ceiling)
}

fn plan_put(nodes: &[Node], limit: usize, pair: Pair, steps: &mut Vec<Step>) -> Answer {
    let path = path_to(nodes, pair.key);
    let id = leaf_of(&path);
    let leaf = &nodes[id];
    let found = leaf.find(pair.key);
    let splits = found.is_err() && leaf.is_full();
    if splits && ids_needed(nodes, &path) > limit - nodes.len() {
        return Answer::Refused(IDS_USED_UP);
    }
    steps.extend(path.iter().map(|node| Step { id: node.id, work: Work::Read }));
    if splits {
        plan_split(nodes, &path, pair, steps);
    } else {
        steps.push(Step { id, work: Work::Edit(Change::Put(pair)) });
    }
    match found {
        Ok(at) => Answer::Replaced(leaf.pairs[at].pointer),
        Err(_) => Answer::Absent,
    }
}

/// The ids that a split of the path's leaf takes: one for each full node from the leaf upwards
/// without a gap, and one more if the root is among them.
fn ids_needed(nodes: &[Node], path: &[PathNode]) -> usize {
    let full = path.iter().rev().take_while(|node| nodes[node.id].is_full()).count();
    full + usize::from(full == path.len())
}

/// Splits the full leaf that a new pair goes to, and every full node above it, leaf upwards.
fn plan_split(nodes: &[Node], path: &[PathNode], pair: Pair, steps: &mut Vec<Step>) {
    let mut next_id = nodes.len();
    let mut overfull = nodes[leaf_of(path)].clone();
    overfull.apply(Change::Put(pair));
    for level in (1..path.len()).rev() {
        let (id, upper_id) = (path[level].id, next_id);
        let Halves { lower, middle, upper } = overfull.into_halves(upper_id as u32);
        steps.push(Step { id, work: Work::Rewrite(lower) });
        steps.push(Step { id: upper_id, work: Work::Create(upper) });
        next_id += 1;

        let PathNode { id: above, place } = path[level - 1];
        let parent = &nodes[above];
        let to_lower = Change::Put(Pair { key: middle, pointer: id as u32 });
        // Taken before the middle key goes in: the place that led to the lower half until now.
        let to_upper = parent.change_child(place, upper_id as u32);
        if !parent.is_full() {
            steps.push(Step { id: above, work: Work::Edit(to_lower) });
            steps.push(Step { id: above, work: Work::Edit(to_upper) });
            return;
        }
        overfull = parent.clone();
        overfull.apply(to_lower);
        overfull.apply(to_upper);
    }
    plan_root_split(overfull, next_id, steps);
}

/// Splits the root: two new nodes, the lower id with the lower half, and the root above them.
fn plan_root_split(overfull: Node, lower_id: usize, steps: &mut Vec<Step>) {
    let upper_id = lower_id + 1;
    let Halves { lower, middle, upper } = overfull.into_halves(upper_id as u32);
    let pairs = vec![Pair { key: middle, pointer: lower_id as u32 }];
    let root = Node { shape: Shape::Branch, pairs, link: upper_id as u32 };
    steps.push(Step { id: lower_id, work: Work::Create(lower) });
    steps.push(Step { id: upper_id, work: Work::Create(upper) });
    steps.push(Step { id: ROOT, work: Work::Rewrite(root) });
}

/// A node of a path, and the place of the child that the path goes on to.
struct PathNode {
    id: usize,
    place: usize,
}

/// The path from the root to the leaf of a key.
fn path_to(nodes: &[Node], key: u32) -> Vec<PathNode> {
    let mut path = Vec::with_capacity(8);
    let mut id = ROOT;
    loop {
        let node = &nodes[id];
        let place = node.child_place(key);
        path.push(PathNode { id, place });
        if node.is_leaf() {
            return path;
        }
        id = node.child(place) as usize;
    }
}

fn leaf_of(path: &[PathNode]) -> usize {
    path.last().expect("a path has its root at least").id
}

/// Reads the nodes from the root to the leaf of a key, and gives the leaf.
fn read_down(nodes: &[Node], key: u32, steps: &mut Vec<Step>) -> usize {
    let mut id = ROOT;
    loop {
        steps.push(Step { id, work: Work::Read });
        let node = &nodes[id];
        if node.is_leaf() {
            return id;
        }
        id = node.child(node.child_place(key)) as usize;
    }
}

/// Makes the change of a step in the table; reads change nothing.
pub fn apply(nodes: &mut Vec<Node>, step: &Step) {
    match &step.work {
        Work::Read => {}
        Work::Edit(change) => nodes[step.id].apply(*change),
        Work::Rewrite(node) => nodes[step.id] = node.clone(),
        Work::Create(node) => {
            debug_assert_eq!(step.id, nodes.len());
            nodes.push(node.clone());
        }
    }
}

/// All pairs of a sound tree, in order.
pub fn pairs(nodes: &[Node]) -> Vec<Pair> {
    let mut all = Vec::new();
    let mut leaf = &nodes[leaf_of(&path_to(nodes, 0))];
    loop {
        all.extend(&leaf.pairs);
        if leaf.link == NO_LINK {
            return all;
        }
        leaf = &nodes[leaf.link as usize];
    }
}

#[cfg(test)]
mod tests {
    use super::*;
    use crate::layout::{MAX_KEYS, MAX_SCAN_PAIRS};
    use crate::node::trial::{branch, leaf};
    use crate::sound::check;

    #[test]
    fn scans_read_what_they_must() {
        let nodes = vec![branch(&[(5, 2)], 1), leaf(5..9, NO_LINK), leaf(0..5, 1)];
        let reads = |low, high, most| {
            let mut steps = Vec::new();
            plan(&nodes, 20, &Command::Scan { low, high, most }, &mut steps);
            steps.iter().map(|step| step.id).collect::<Vec<_>>()
        };
        assert_eq!(reads(0, 3, MAX_SCAN_PAIRS), [0, 2], "stopped by a key above");
        assert_eq!(reads(0, 4, MAX_SCAN_PAIRS), [0, 2, 1], "only a key above stops it");
        assert_eq!(reads(0, 4, 5), [0, 2], "stopped by the count at a leaf's end");
        assert_eq!(reads(4, 3, MAX_SCAN_PAIRS), [0; 0], "low above high reads nothing");
        assert_eq!(reads(5, 100, MAX_SCAN_PAIRS), [0, 1]);
    }

    #[test]
    fn ceilings_read_on_until_there_is_a_key() {
        // The leaves by their keys: node 3, node 1, which has none, and node 2.
        let nodes = vec![branch(&[(5, 3), (9, 1)], 2), leaf(5..5, 2), leaf(20..22, NO_LINK), leaf(2..4, 1)];
        assert_eq!(check(&nodes), Ok(()));
        let ceiling = |key| {
            let mut steps = Vec::new();
            let answer = plan(&nodes, 20, &Command::Ceiling { key }, &mut steps);
            (answer, steps.iter().map(|step| step.id).collect::<Vec<_>>())
        };
        let found = |key| Some(Answer::Ceiling(Pair { key, pointer: 0 }));
        assert_eq!(ceiling(0), (found(2), vec![0, 3]));
        assert_eq!(ceiling(3), (found(3), vec![0, 3]), "the key itself");
        assert_eq!(ceiling(4), (found(20), vec![0, 3, 1, 2]), "through a leaf without a key");
        assert_eq!(ceiling(5), (found(20), vec![0, 1, 2]), "from a leaf without a key");
        assert_eq!(ceiling(22), (Some(Answer::Absent), vec![0, 2]), "there is no leaf behind the last");
    }

    /// A tree of full leaves below branches with so many keys, level by level from the root; ids by level.
    fn tree_of(keys_by_level: &[usize]) -> Vec<Node> {
        let mut nodes: Vec<Node> = Vec::new();
        // Where the keys of each node of the level begin, and how many there are.
        let (mut lows, mut span) = (vec![0u64], 1u64 << 32);
        for &keys in keys_by_level {
            span /= keys as u64 + 1;
            let first_child = nodes.len() + lows.len();
            let mut below = Vec::new();
            for (place, low) in lows.iter().enumerate() {
                let child = |at: usize| (first_child + place * (keys + 1) + at) as u32;
                let bound = |at: usize| low + at as u64 * span;
                let pairs = (0..keys).map(|at| Pair { key: bound(at + 1) as u32, pointer: child(at) }).collect();
                nodes.push(Node { shape: Shape::Branch, pairs, link: child(keys) });
                below.extend((0..=keys).map(bound));
            }
            lows = below;
        }
        for (place, &low) in lows.iter().enumerate() {
            let pairs = (0..MAX_KEYS as u32).map(|at| Pair { key: low as u32 + 2 * at, pointer: at }).collect();
            let link = if place + 1 == lows.len() { NO_LINK } else { (nodes.len() + 1) as u32 };
            nodes.push(Node { shape: Shape::Leaf, pairs, link });
        }
        nodes
    }

    #[test]
    fn a_put_needs_an_id_for_each_full_node_without_a_gap() {
        for (levels, needed) in [
            (&[][..], 2),
            (&[3][..], 1),
            (&[MAX_KEYS][..], 3),
            (&[3, 5][..], 1),
            (&[3, MAX_KEYS][..], 2),
            (&[MAX_KEYS, 5][..], 1),
            (&[MAX_KEYS, MAX_KEYS][..], 4),
            (&[2, MAX_KEYS, MAX_KEYS][..], 3),
        ] {
            let nodes = tree_of(levels);
            assert_eq!(check(&nodes), Ok(()), "{levels:?}");
            for spare in 0..=needed {
                let mut steps = Vec::new();
                let put = Command::Put { key: 1, value: 7 };
                let answer = plan(&nodes, nodes.len() + spare, &put, &mut steps);
                if spare < needed {
                    assert_eq!((answer, steps.len()), (Some(Answer::Refused(IDS_USED_UP)), 0), "{levels:?}");
                    continue;
                }
                assert_eq!(answer, Some(Answer::Absent));
                let mut after = nodes.clone();
                steps.iter().for_each(|step| apply(&mut after, step));
                assert_eq!(after.len(), nodes.len() + needed, "{levels:?}");
                assert_eq!(check(&after), Ok(()), "{levels:?}");
                assert_eq!(pairs(&after).len(), pairs(&nodes).len() + 1);
            }
        }
    }

    #[test]
    fn steps_of_splits_come_leaf_upwards() {
        let steps = |levels: &[usize]| {
            let mut steps = Vec::new();
            plan(&tree_of(levels), 10_000, &Command::Put { key: 1, value: 7 }, &mut steps);
            let name = |work: &Work| match work {
                Work::Read => 'r',
                Work::Edit(_) => 'e',
                Work::Rewrite(_) => 'w',
                Work::Create(_) => 'c',
            };
            steps.iter().map(|step| format!("{}{}", name(&step.work), step.id)).collect::<Vec<_>>().join(" ")
        };
        assert_eq!(steps(&[]), "r0 c1 c2 w0");
        assert_eq!(steps(&[3]), "r0 r1 w1 c5 e0 e0");
        assert_eq!(steps(&[MAX_KEYS]), "r0 r1 w1 c26 c27 c28 w0");
        // The root, two branches of 25 leaves: 53 nodes, ids 0 to 52.
        assert_eq!(steps(&[1, MAX_KEYS]), "r0 r1 r3 w3 c53 w1 c54 e0 e0");
    }
}
