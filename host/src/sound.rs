//! Soundness of a tree: what document 01 asks of nodes once their contents are known.

use std::fmt;

use crate::layout::NO_LINK;
use crate::node::{Node, Pair, Shape};
use crate::tree::ROOT;

/// What is wrong with a tree, and at which node.
#[derive(Clone, Copy, PartialEq, Eq, Debug)]
pub struct Flaw {
    pub id: usize,
    pub part: Part,
    pub why: &'static str,
}

/// The part of a node that a flaw shows in.
#[derive(Clone, Copy, PartialEq, Eq, Debug)]
pub enum Part {
    Whole,
    /// The pair with this key.
    Key(u32),
    Link,
}

/// Says whether the tree below the root is sound, or else the first thing that is wrong with it.
pub fn check(nodes: &[Node]) -> Result<(), &'static str> {
    let nodes: Vec<Option<&Node>> = nodes.iter().map(Some).collect();
    walk(&nodes).flaws.first().map_or(Ok(()), |flaw| Err(flaw.why))
}

/// Walks over the tree from the root; a node that is not there is said elsewhere.
pub fn walk<'a>(nodes: &'a [Option<&'a Node>]) -> Walk<'a> {
    let reached = vec![None; nodes.len()];
    let mut walk = Walk { nodes, reached, missing: false, leaf_depth: None, last_leaf: None, flaws: Vec::new() };
    // The pointers due, the leftmost last: a tree may be as deep as it has nodes, too deep for calls.
    let mut due = Vec::new();
    if !nodes.is_empty() {
        walk.visit(ROOT, Bounds { low: 0, end: 1 << 32 }, 0, &mut due);
    }
    while let Some(pointer) = due.pop() {
        walk.follow(pointer, &mut due);
    }
    walk.finish();
    walk
}

/// A pointer that a walk has to follow.
struct Due {
    from: usize,
    part: Part,
    pointer: u32,
    bounds: Bounds,
    depth: usize,
}

/// The keys that a node may have: from `low`, below `end`.
#[derive(Clone, Copy, PartialEq, Eq, Debug)]
pub struct Bounds {
    low: u64,
    end: u64,
}

impl Bounds {
    pub fn contain(&self, key: u32) -> bool {
        (self.low..self.end).contains(&u64::from(key))
    }
}

impl fmt::Display for Bounds {
    fn fmt(&self, out: &mut fmt::Formatter<'_>) -> fmt::Result {
        match self.end.checked_sub(1).filter(|&last| last >= self.low) {
            Some(last) => write!(out, "keys {} to {last}", self.low),
            None => write!(out, "no keys"),
        }
    }
}

/// A walk over the tree from left to right, with what it has seen.
pub struct Walk<'a> {
    nodes: &'a [Option<&'a Node>],
    /// The bounds under which each node was reached.
    pub reached: Vec<Option<Bounds>>,
    /// Whether a node was reached that is not there.
    missing: bool,
    leaf_depth: Option<usize>,
    /// The last leaf, unless a node was missing since.
    last_leaf: Option<(usize, &'a Node)>,
    pub flaws: Vec<Flaw>,
}

impl<'a> Walk<'a> {
    fn flaw(&mut self, id: usize, part: Part, why: &'static str) {
        self.flaws.push(Flaw { id, part, why });
    }

    fn visit(&mut self, id: usize, bounds: Bounds, depth: usize, due: &mut Vec<Due>) {
        self.reached[id] = Some(bounds);
        let Some(node) = self.nodes[id] else {
            // Neither the nodes below it are known, nor which leaf would come next.
            (self.missing, self.last_leaf) = (true, None);
            return;
        };
        self.check_keys(id, node, bounds);
        match node.shape {
            Shape::Leaf => self.visit_leaf(id, node, depth),
            Shape::Branch => due.extend(children(id, node, bounds, depth + 1).into_iter().rev()),
        }
    }

    fn check_keys(&mut self, id: usize, node: &Node, bounds: Bounds) {
        for pair in node.pairs.windows(2).filter(|pair| pair[0].key >= pair[1].key) {
            self.flaw(id, Part::Key(pair[1].key), "keys do not ascend");
        }
        for Pair { key, .. } in node.pairs.iter().filter(|pair| !bounds.contain(pair.key)) {
            self.flaw(id, Part::Key(*key), "a key is out of its bounds");
        }
        if !node.is_leaf() && node.pairs.is_empty() {
            self.flaw(id, Part::Whole, "a branch has no key");
        }
    }

    fn visit_leaf(&mut self, id: usize, leaf: &'a Node, depth: usize) {
        if *self.leaf_depth.get_or_insert(depth) != depth {
            self.flaw(id, Part::Whole, "a leaf at another depth than the first");
        }
        if let Some((before, _)) = self.last_leaf.filter(|(_, before)| before.link as usize != id) {
            self.flaw(before, Part::Link, "a leaf's link is not the next leaf");
        }
        self.last_leaf = Some((id, leaf));
    }

    /// Follows a pointer to a node that was not reached before.
    fn follow(&mut self, Due { from, part, pointer, bounds, depth }: Due, due: &mut Vec<Due>) {
        match self.reached.get(pointer as usize) {
            None => self.flaw(from, part, "a pointer to no node"),
            Some(Some(_)) => self.flaw(from, part, "a pointer to a node that was reached before"),
            Some(None) => self.visit(pointer as usize, bounds, depth, due),
        }
    }

    fn finish(&mut self) {
        let unreached = |&id: &usize| self.reached[id].is_none() && !self.missing;
        for id in (0..self.nodes.len()).filter(unreached).collect::<Vec<_>>() {
            self.flaw(id, Part::Whole, "a node is not reached");
        }
        if let Some((id, _)) = self.last_leaf.filter(|(_, leaf)| leaf.link != NO_LINK) {
            self.flaw(id, Part::Link, "the last leaf has a link");
        }
    }
}

/// The pointers of a branch, from left to right.
fn children(from: usize, branch: &Node, bounds: Bounds, depth: usize) -> Vec<Due> {
    let mut low = bounds.low;
    let mut due = Vec::with_capacity(branch.pairs.len() + 1);
    for pair in &branch.pairs {
        let bounds = Bounds { low, end: u64::from(pair.key) };
        due.push(Due { from, part: Part::Key(pair.key), pointer: pair.pointer, bounds, depth });
        low = bounds.end;
    }
    due.push(Due { from, part: Part::Link, pointer: branch.link, bounds: Bounds { low, ..bounds }, depth });
    due
}

#[cfg(test)]
mod tests {
    use super::*;
    use crate::node::trial::{branch, leaf};

    #[test]
    fn soundness() {
        let sound = vec![branch(&[(5, 2)], 1), leaf(5..9, NO_LINK), leaf(0..5, 1)];
        assert_eq!(check(&sound), Ok(()));
        let with = |id: usize, node: Node| {
            let mut nodes = sound.clone();
            nodes[id] = node;
            check(&nodes).is_ok()
        };
        assert!(with(2, leaf(5..5, 1)), "an empty leaf");
        assert!(!with(2, leaf(0..6, 1)), "a key at the bound");
        assert!(!with(2, leaf(0..5, 0)), "a wrong link");
        assert!(!with(1, leaf(5..9, 2)), "the last leaf has a link");
        assert!(!with(1, leaf(4..9, NO_LINK)), "a key below its bound");
        assert!(!with(0, branch(&[(5, 2)], 2)), "reached twice");
        assert!(!with(0, branch(&[(5, 2)], 65_537)), "a pointer has 32 bits");
        assert!(!with(0, branch(&[(5, 0)], 1)), "the root counts as reached");
        assert!(!with(0, leaf(0..0, NO_LINK)), "nodes that are not reached");
        assert!(!with(0, branch(&[], 1)), "a branch with no key");
        let lowest = vec![branch(&[(0, 2)], 1), leaf(0..9, NO_LINK), leaf(0..0, 1)];
        assert_eq!(check(&lowest), Ok(()), "a branch key may equal its lower bound");
    }

    #[test]
    fn a_tree_may_be_as_deep_as_it_has_nodes() {
        let link = |id: u32| branch(&[(1, u32::MAX)], id + 1);
        let nodes: Vec<Node> = (0..65_535).map(link).chain([leaf(1..2, NO_LINK)]).collect();
        assert_eq!(check(&nodes), Err("a pointer to no node"));
        assert!(walk(&nodes.iter().map(Some).collect::<Vec<_>>()).reached.iter().all(Option::is_some));
    }

    #[test]
    fn all_flaws_are_told_with_their_places() {
        let nodes = [branch(&[(5, 2), (9, 7)], 1), leaf(8..12, 2), leaf(3..6, NO_LINK), leaf(0..0, NO_LINK)];
        let nodes: Vec<Option<&Node>> = nodes.iter().map(Some).collect();
        let told: Vec<(usize, Part)> = walk(&nodes).flaws.iter().map(|flaw| (flaw.id, flaw.part)).collect();
        let expected = [
            (2, Part::Key(5)),
            (0, Part::Key(9)),
            (1, Part::Key(8)),
            (2, Part::Link),
            (3, Part::Whole),
            (1, Part::Link),
        ];
        assert_eq!(told, expected);
        let missing = [nodes[0], None, nodes[2], None];
        let told: Vec<usize> = walk(&missing).flaws.iter().map(|flaw| flaw.id).collect();
        assert_eq!(told, [2, 0], "nothing is said of what a missing node would have had");
    }
}
