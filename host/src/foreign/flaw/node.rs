//! Flaws in the content of one node.

use crate::account::Mode;
use crate::foreign::spelling::Spelling;
use crate::layout::MAX_KEYS;
use crate::node::{Change, Node, Pair, Shape};
use crate::random::Random;

/// Changes a node of two keys or more, which only a node page can then hold.
fn change_keys(random: &mut Random, spelling: &mut Spelling, change: fn(&mut Vec<Pair>)) -> bool {
    let Some(id) = spelling.pick_node(random, |_, node| node.pairs.len() > 1) else { return false };
    change(&mut spelling.nodes[id].pairs);
    spelling.accounts[id].mode = Mode::Disk;
    true
}

pub(super) fn keys_descend(random: &mut Random, spelling: &mut Spelling, _: usize) -> bool {
    change_keys(random, spelling, |pairs| pairs.swap(0, 1))
}

pub(super) fn key_twice(random: &mut Random, spelling: &mut Spelling, _: usize) -> bool {
    change_keys(random, spelling, |pairs| pairs[1].key = pairs[0].key)
}

/// Changes the history of a log node that passes a test.
fn change_history(
    random: &mut Random,
    spelling: &mut Spelling,
    test: impl Fn(usize, &Node) -> bool,
    change: impl FnOnce(&Node, &mut Vec<Change>),
) -> bool {
    let Some(id) = spelling.pick_node(random, test) else { return false };
    spelling.accounts[id].mode = Mode::Log;
    change(&spelling.nodes[id], &mut spelling.histories[id]);
    true
}

pub(super) fn key_25(random: &mut Random, spelling: &mut Spelling, _: usize) -> bool {
    change_history(
        random,
        spelling,
        |_, node| node.pairs.len() == MAX_KEYS,
        |node, history| {
            let key = (0..).find(|&key| node.find(key).is_err()).expect("some key is free");
            history.push(Change::Put(Pair { key, pointer: 0 }));
            history.push(Change::Delete { key });
        },
    )
}

pub(super) fn links_mixed(random: &mut Random, spelling: &mut Spelling, _: usize) -> bool {
    change_history(
        random,
        spelling,
        |_, _| true,
        |node, history| {
            let other = if node.is_leaf() { Shape::Branch } else { Shape::Leaf };
            history.insert(0, Change::Link(other, node.link));
        },
    )
}

pub(super) fn no_link(random: &mut Random, spelling: &mut Spelling, _: usize) -> bool {
    change_history(
        random,
        spelling,
        |_, _| true,
        |_, history| {
            history.retain(|change| !matches!(change, Change::Link(..)));
            history.push(Change::Delete { key: 0 });
            history.rotate_right(1);
        },
    )
}
