//! Flaws in the tree of nodes that a pool spells.

use crate::foreign::spelling::Spelling;
use crate::layout::{node_limit, MAX_KEYS, MAX_LEVELS, NO_LINK};
use crate::node::{Change, Node, Pair, Shape};
use crate::random::Random;

/// Changes one of the nodes that pass a test, and makes all histories anew.
fn change_node(
    random: &mut Random,
    spelling: &mut Spelling,
    test: impl Fn(usize, &Node) -> bool,
    change: impl FnOnce(&mut Random, &mut Node),
) -> bool {
    let Some(id) = spelling.pick_node(random, test) else { return false };
    change(random, &mut spelling.nodes[id]);
    spelling.rebuild_histories();
    true
}

pub(super) fn link_elsewhere(random: &mut Random, spelling: &mut Spelling, _: usize) -> bool {
    let count = spelling.nodes.len();
    change_node(
        random,
        spelling,
        |_, node| node.is_leaf(),
        |random, node| {
            let any = random.below(count) as u32;
            let other = random.pick(&[NO_LINK, 0, any, count as u32]);
            node.link = if other == node.link { other ^ 0x10000 } else { other };
        },
    )
}

/// Two neighbouring leaves: the ids of one that has room and of the next, which has a key.
fn neighbours(
    random: &mut Random,
    spelling: &Spelling,
    left: fn(&Node) -> bool,
    right: fn(&Node) -> bool,
) -> Option<(usize, usize)> {
    let nodes = &spelling.nodes;
    let fits = |_: usize, node: &Node| {
        node.is_leaf() && node.link != NO_LINK && left(node) && right(&nodes[node.link as usize])
    };
    spelling.pick_node(random, fits).map(|id| (id, nodes[id].link as usize))
}

pub(super) fn leaf_key_above(random: &mut Random, spelling: &mut Spelling, _: usize) -> bool {
    let Some((left, right)) = neighbours(random, spelling, |left| !left.is_full(), |right| !right.pairs.is_empty())
    else {
        return false;
    };
    let beyond = spelling.nodes[right].pairs[0];
    spelling.nodes[left].apply(Change::Put(beyond));
    spelling.rebuild_histories();
    true
}

pub(super) fn leaf_key_below(random: &mut Random, spelling: &mut Spelling, _: usize) -> bool {
    let Some((left, right)) = neighbours(random, spelling, |left| !left.pairs.is_empty(), |right| !right.is_full())
    else {
        return false;
    };
    let beyond = spelling.nodes[left].pairs[0];
    spelling.nodes[right].apply(Change::Put(beyond));
    spelling.rebuild_histories();
    true
}

/// A branch whose children are branches.
fn pick_upper_branch(random: &mut Random, spelling: &Spelling) -> Option<usize> {
    let nodes = &spelling.nodes;
    spelling.pick_node(random, |_, node| !node.is_leaf() && !nodes[node.link as usize].is_leaf())
}

pub(super) fn branch_key_above(random: &mut Random, spelling: &mut Spelling, _: usize) -> bool {
    let Some(id) = pick_upper_branch(random, spelling) else { return false };
    let Pair { key, pointer } = spelling.nodes[id].pairs[0];
    let child = &mut spelling.nodes[pointer as usize];
    let last = child.pairs.len() - 1;
    child.pairs[last].key = key;
    spelling.rebuild_histories();
    true
}

pub(super) fn branch_key_below(random: &mut Random, spelling: &mut Spelling, _: usize) -> bool {
    let Some(id) = pick_upper_branch(random, spelling) else { return false };
    let Node { pairs, link, .. } = &spelling.nodes[id];
    let (low, child) = (pairs[pairs.len() - 1].key, *link as usize);
    spelling.nodes[child].pairs[0].key = low.saturating_sub(1);
    spelling.rebuild_histories();
    low > 0
}

/// Makes one of a branch's pointers another.
fn change_pointer(random: &mut Random, spelling: &mut Spelling, other: impl Fn(&Node, u32) -> u32) -> bool {
    change_node(
        random,
        spelling,
        |_, node| !node.is_leaf(),
        |random, node| {
            let place = random.below(node.pairs.len() + 1);
            let before = node.child(place);
            let change = node.change_child(place, other(node, before));
            node.apply(change);
        },
    )
}

pub(super) fn pointer_to_root(random: &mut Random, spelling: &mut Spelling, _: usize) -> bool {
    change_pointer(random, spelling, |_, _| 0)
}

pub(super) fn pointer_twice(random: &mut Random, spelling: &mut Spelling, _: usize) -> bool {
    change_pointer(random, spelling, |node, before| if before == node.link { node.child(0) } else { node.link })
}

pub(super) fn pointer_to_count(random: &mut Random, spelling: &mut Spelling, _: usize) -> bool {
    let count = spelling.nodes.len() as u32;
    change_pointer(random, spelling, |_, _| count)
}

pub(super) fn pointer_of_17_bits(random: &mut Random, spelling: &mut Spelling, _: usize) -> bool {
    change_pointer(random, spelling, |_, before| before + 0x10000)
}

pub(super) fn not_reached(_: &mut Random, spelling: &mut Spelling, blocks: usize) -> bool {
    if spelling.nodes.len() == node_limit(blocks) {
        return false;
    }
    spelling.nodes.push(Node::empty_leaf());
    spelling.rebuild_histories();
    true
}

/// Turns a leaf into a branch over two empty leaves; all else is as it should be.
pub(super) fn deeper_leaf(random: &mut Random, spelling: &mut Spelling, blocks: usize) -> bool {
    let count = spelling.nodes.len();
    let Some(id) = spelling.pick_node(random, |id, node| id != 0 && node.is_leaf() && !node.pairs.is_empty()) else {
        return false;
    };
    if count + 2 > node_limit(blocks) {
        return false;
    }
    let leaf = spelling.nodes[id].clone();
    let (left, right) = (count as u32, count as u32 + 1);
    for before in spelling.nodes.iter_mut().filter(|node| node.is_leaf() && node.link == id as u32) {
        before.link = left;
    }
    let pairs = vec![Pair { key: leaf.pairs[0].key, pointer: left }];
    spelling.nodes[id] = Node { shape: Shape::Branch, pairs, link: right };
    spelling.nodes.push(Node { link: right, ..Node::empty_leaf() });
    spelling.nodes.push(Node { link: leaf.link, ..Node::empty_leaf() });
    spelling.rebuild_histories();
    true
}

/// Eight branches, each the first child of the one above, and nine leaves in key order: the last branch has two of
/// them, the others one. All but the leaves' depths is as it should be.
pub(super) fn left_path(_: &mut Random, spelling: &mut Spelling, _: usize) -> bool {
    let branches = MAX_LEVELS as u32 - 1;
    let last = 2 * branches;
    let branch = |id: u32| {
        let pair = Pair { key: 10 * (branches - id), pointer: id + 1 };
        Node { shape: Shape::Branch, pairs: vec![pair], link: last - id }
    };
    let leaf = |id: u32| {
        let pair = Pair { key: 10 * (id - branches), pointer: 0 };
        Node { shape: Shape::Leaf, pairs: vec![pair], link: if id == last { NO_LINK } else { id + 1 } }
    };
    spelling.nodes = (0..branches).map(branch).chain((branches..=last).map(leaf)).collect();
    spelling.rebuild_histories();
    true
}

pub(super) fn branch_without_key(_: &mut Random, spelling: &mut Spelling, _: usize) -> bool {
    let root = Node { shape: Shape::Branch, pairs: Vec::new(), link: 1 };
    spelling.nodes = vec![root, Node::empty_leaf()];
    spelling.rebuild_histories();
    true
}

pub(super) fn too_many_nodes(_: &mut Random, spelling: &mut Spelling, blocks: usize) -> bool {
    let leaves = node_limit(blocks) as u32;
    if leaves as usize > MAX_KEYS + 1 {
        return false;
    }
    let pairs = (1..leaves).map(|id| Pair { key: 10 * id, pointer: id }).collect();
    let mut nodes = vec![Node { shape: Shape::Branch, pairs, link: leaves }];
    nodes.extend((2..=leaves).map(|next| Node { link: next, ..Node::empty_leaf() }));
    nodes.push(Node::empty_leaf());
    spelling.nodes = nodes;
    spelling.rebuild_histories();
    true
}
