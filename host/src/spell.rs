//! A node in words.

use crate::account::Mode;
use crate::mount::Mounted;
use crate::node::{Node, Shape};

/// The nodes of a pool that opens, a line each.
pub fn spell(mounted: &Mounted) -> Vec<String> {
    let line = |id: usize| {
        let (node, row) = (&mounted.nodes[id], &mounted.rows[id]);
        let pairs: Vec<String> = node.pairs.iter().map(|pair| format!("{}:{}", pair.key, pair.pointer)).collect();
        format!(
            "node {id} {} {} score {} version {} link {} pairs {}",
            shape_name(node.shape),
            mode_name(row.account.mode),
            row.account.score,
            row.version,
            node.link,
            if pairs.is_empty() { "-".to_string() } else { pairs.join(" ") },
        )
    };
    (0..mounted.nodes.len()).map(line).collect()
}

/// One node in full: where it lies, its account, its pairs; nothing if there is no such node.
pub fn node(mounted: &Mounted, id: usize) -> Option<String> {
    let (node, row) = (mounted.nodes.get(id)?, mounted.rows.get(id)?);
    let (mode, score) = (mode_name(row.account.mode), row.account.score);
    let place = format!("node {id}: {mode} mode, score {score}, version {}, pages {:?}", row.version, row.pages);
    Some(format!("{place}\n{}", content(node)))
}

fn content(node: &Node) -> String {
    let link = match node.shape {
        Shape::Leaf => "next leaf",
        Shape::Branch => "last pointer",
    };
    let keys = node.pairs.len();
    let mut out = format!("  {} of {keys} keys, {link} {}\n", shape_name(node.shape), node.link);
    for pair in &node.pairs {
        out.push_str(&format!("    {} -> {}\n", pair.key, pair.pointer));
    }
    out
}

pub fn shape_name(shape: Shape) -> &'static str {
    match shape {
        Shape::Leaf => "leaf",
        Shape::Branch => "branch",
    }
}

pub fn mode_name(mode: Mode) -> &'static str {
    match mode {
        Mode::Log => "log",
        Mode::Disk => "disk",
    }
}
