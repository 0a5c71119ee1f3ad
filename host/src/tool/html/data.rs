//! What the page's script reads: the nodes, with their keys and pages.

use crate::mount::Mounted;
use crate::node::Node;

/// The nodes by id as JSON; `null` where the pool spells no tree.
///
/// A node is a list: whether it is a leaf, its keys, its pointers, its link, its pages. All are numbers, so that no
/// text of a pool comes into the script.
pub(super) fn json(mounted: Option<&Mounted>) -> String {
    let Some(mounted) = mounted else { return "null".to_string() };
    let node = |(node, row): (&Node, &crate::mount::Row)| {
        let (keys, pointers) = (node.pairs.iter().map(|pair| pair.key), node.pairs.iter().map(|pair| pair.pointer));
        let pages = row.pages.iter().map(|&page| page as u32);
        let leaf = u8::from(node.is_leaf());
        format!("[{leaf},{},{},{},{}]", list(keys), list(pointers), node.link, list(pages))
    };
    let nodes: Vec<String> = mounted.nodes.iter().zip(&mounted.rows).map(node).collect();
    format!("[{}]", nodes.join(",\n"))
}

fn list(numbers: impl Iterator<Item = u32>) -> String {
    let numbers: Vec<String> = numbers.map(|number| number.to_string()).collect();
    format!("[{}]", numbers.join(","))
}
