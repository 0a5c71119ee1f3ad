//! A node by value: its keys with their pointers, and its link.

use crate::layout::{LOWER_KEYS, MAX_KEYS, NO_LINK};

/// A key with its pointer: a value in a leaf, a node id in a branch.
#[derive(Clone, Copy, PartialEq, Eq, Debug)]
pub struct Pair {
    pub key: u32,
    pub pointer: u32,
}

#[derive(Clone, Copy, PartialEq, Eq, Debug)]
pub enum Shape {
    Leaf,
    Branch,
}

/// A node: ascending pairs and a link. A leaf's link is the next leaf, a branch's its last pointer.
#[derive(Clone, PartialEq, Eq, Debug)]
pub struct Node {
    pub shape: Shape,
    pub pairs: Vec<Pair>,
    pub link: u32,
}

/// What one log entry does to a node.
#[derive(Clone, Copy, PartialEq, Eq, Debug)]
pub enum Change {
    /// Adds the key or replaces its pointer.
    Put(Pair),
    /// Deletes the key if it is there.
    Delete { key: u32 },
    /// Sets a leaf's or a branch's link.
    Link(Shape, u32),
}

/// The two halves of a node of 25 keys, and the key between them that goes to the node above.
pub struct Halves {
    pub lower: Node,
    pub middle: u32,
    pub upper: Node,
}

impl Node {
    /// The leaf that prepare writes.
    pub fn empty_leaf() -> Node {
        Node { shape: Shape::Leaf, pairs: Vec::new(), link: NO_LINK }
    }

    pub fn is_leaf(&self) -> bool {
        self.shape == Shape::Leaf
    }

    pub fn is_full(&self) -> bool {
        self.pairs.len() >= MAX_KEYS
    }

    /// Where a key stands, or where it would be inserted.
    pub fn find(&self, key: u32) -> Result<usize, usize> {
        find(&self.pairs, key)
    }

    /// The place of the child that a key leads to: that of the first key above it, or the last.
    pub fn child_place(&self, key: u32) -> usize {
        self.pairs.partition_point(|pair| pair.key <= key)
    }

    /// The pointer at a place; the link stands behind the pairs.
    pub fn child(&self, place: usize) -> u32 {
        self.pairs.get(place).map_or(self.link, |pair| pair.pointer)
    }

    /// The change that makes the child at a place another one.
    pub fn change_child(&self, place: usize, pointer: u32) -> Change {
        match self.pairs.get(place) {
            Some(pair) => Change::Put(Pair { pointer, ..*pair }),
            None => Change::Link(Shape::Branch, pointer),
        }
    }

    /// Makes one change.
    pub fn apply(&mut self, change: Change) {
        match change {
            Change::Put(pair) => put(&mut self.pairs, pair),
            Change::Delete { key } => delete(&mut self.pairs, key),
            Change::Link(_, link) => self.link = link,
        }
    }

    /// The changes that write the whole content: pairs ascending, the link last.
    pub fn changes(&self) -> impl Iterator<Item = Change> + '_ {
        let link = Change::Link(self.shape, self.link);
        self.pairs.iter().copied().map(Change::Put).chain(std::iter::once(link))
    }

    /// How many changes those are.
    pub fn change_count(&self) -> usize {
        self.pairs.len() + 1
    }

    /// Splits a node of 25 keys; `upper_id` is the id that the upper half gets.
    ///
    /// A leaf's 13th key stays in the upper half; a branch's rises, and its pointer ends the lower half.
    pub fn into_halves(mut self, upper_id: u32) -> Halves {
        debug_assert_eq!(self.pairs.len(), MAX_KEYS + 1);
        let mut upper = self.pairs.split_off(LOWER_KEYS);
        let Pair { key: middle, pointer } = upper[0];
        let lower_link = match self.shape {
            Shape::Leaf => upper_id,
            Shape::Branch => {
                upper.remove(0);
                pointer
            }
        };
        let upper = Node { shape: self.shape, pairs: upper, link: self.link };
        let lower = Node { link: lower_link, ..self };
        Halves { lower, middle, upper }
    }
}

fn find(pairs: &[Pair], key: u32) -> Result<usize, usize> {
    pairs.binary_search_by_key(&key, |pair| pair.key)
}

fn put(pairs: &mut Vec<Pair>, pair: Pair) {
    match find(pairs, pair.key) {
        Ok(at) => pairs[at] = pair,
        Err(at) => pairs.insert(at, pair),
    }
}

fn delete(pairs: &mut Vec<Pair>, key: u32) {
    if let Ok(at) = find(pairs, key) {
        pairs.remove(at);
    }
}

/// A log node's content while its entries are taken in order.
#[derive(Clone, Debug, Default)]
pub struct Replay {
    pairs: Vec<Pair>,
    link: Option<(Shape, u32)>,
    /// The first rule that an entry broke.
    broken: Option<&'static str>,
}

impl Replay {
    pub fn apply(&mut self, change: Change) {
        match change {
            Change::Put(pair) => put(&mut self.pairs, pair),
            Change::Delete { key } => delete(&mut self.pairs, key),
            Change::Link(shape, link) => {
                if self.link.is_some_and(|(before, _)| before != shape) {
                    self.broken = self.broken.or(Some("leaf and branch links mixed"));
                }
                self.link = Some((shape, link));
            }
        }
        if self.pairs.len() > MAX_KEYS {
            self.broken = self.broken.or(Some("more than 24 keys after an entry"));
        }
    }

    /// Whether an entry broke a rule.
    pub fn is_broken(&self) -> bool {
        self.broken.is_some()
    }

    /// The pairs so far, whatever rule was broken.
    pub fn pairs(&self) -> &[Pair] {
        &self.pairs
    }

    /// The shape that the last link gave.
    pub fn shape(&self) -> Option<Shape> {
        self.link.map(|(shape, _)| shape)
    }

    /// The node, or the rule that was broken on the way.
    pub fn finish(self) -> Result<Node, &'static str> {
        match (self.link, self.broken) {
            (_, Some(broken)) => Err(broken),
            (None, None) => Err("no entry sets the link"),
            (Some((shape, link)), None) => Ok(Node { shape, pairs: self.pairs, link }),
        }
    }
}

/// Nodes that tests are made of.
#[cfg(test)]
pub(crate) mod trial {
    use super::{Node, Pair, Shape};

    /// A leaf with these keys, each with value 0.
    pub fn leaf(keys: std::ops::Range<u32>, link: u32) -> Node {
        Node { shape: Shape::Leaf, pairs: keys.map(|key| Pair { key, pointer: 0 }).collect(), link }
    }

    /// A branch with these keys and pointers.
    pub fn branch(pairs: &[(u32, u32)], link: u32) -> Node {
        let pairs = pairs.iter().map(|&(key, pointer)| Pair { key, pointer }).collect();
        Node { shape: Shape::Branch, pairs, link }
    }
}

#[cfg(test)]
mod tests {
    use super::*;

    fn overfull(shape: Shape) -> Node {
        let pairs = (0..=MAX_KEYS as u32).map(|i| Pair { key: 10 * i, pointer: 100 + i }).collect();
        Node { shape, pairs, link: 77 }
    }

    #[test]
    fn a_leaf_of_25_gives_12_and_13() {
        let Halves { lower, middle, upper } = overfull(Shape::Leaf).into_halves(9);
        assert_eq!((lower.pairs.len(), lower.link), (12, 9));
        assert_eq!((upper.pairs.len(), upper.link), (13, 77));
        assert_eq!(middle, upper.pairs[0].key);
    }

    #[test]
    fn a_branch_of_25_gives_12_and_12_and_one_that_rises() {
        let Halves { lower, middle, upper } = overfull(Shape::Branch).into_halves(9);
        assert_eq!((lower.pairs.len(), lower.link), (12, 112));
        assert_eq!((upper.pairs.len(), upper.link), (12, 77));
        assert_eq!((middle, upper.pairs[0].key), (120, 130));
    }

    #[test]
    fn a_branch_leads_below_its_keys() {
        let branch = Node { shape: Shape::Branch, pairs: vec![Pair { key: 5, pointer: 1 }], link: 2 };
        assert_eq!([4, 5, 6].map(|key| branch.child(branch.child_place(key))), [1, 2, 2]);
    }

    #[test]
    fn replay_keeps_the_rules() {
        let node = Node { shape: Shape::Leaf, pairs: vec![Pair { key: 1, pointer: 2 }], link: 3 };
        let replayed = |changes: &[Change]| {
            let mut replay = Replay::default();
            changes.iter().for_each(|&change| replay.apply(change));
            replay.finish().ok()
        };
        assert_eq!(replayed(&node.changes().collect::<Vec<_>>()), Some(node));
        assert_eq!(replayed(&[]), None, "no link");
        let mixed = [Change::Link(Shape::Leaf, 1), Change::Link(Shape::Branch, 1)];
        assert_eq!(replayed(&mixed), None);
        let mut many: Vec<Change> = (0..=MAX_KEYS as u32).map(|key| Change::Put(Pair { key, pointer: 0 })).collect();
        many.extend([Change::Delete { key: 3 }, Change::Link(Shape::Leaf, 1)]);
        assert_eq!(replayed(&many), None, "a 25th key for one moment");
        many.remove(MAX_KEYS);
        assert_eq!(replayed(&many).map(|node| node.pairs.len()), Some(23));
    }
}
