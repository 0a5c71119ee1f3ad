//! The tree: a box a branch, with what is below in it; a bar a leaf, as high as it is full.

use crate::account::Mode;
use crate::layout::{MAX_KEYS, NO_LINK};
use crate::mount::Mounted;
use crate::spell::{mode_name, shape_name};
use crate::svg::escaped;
use crate::tool::words::counted;
use crate::tree::ROOT;

/// The height of a full leaf's bar, as the style sheet has it.
const BAR_HEIGHT: usize = 45;

/// The section of the tree.
pub(super) fn section(mounted: &Mounted, all_check: bool) -> String {
    let mut out = String::from("<section><h2>Tree</h2>\n");
    if !all_check {
        out.push_str(
            "<p class=\"bad\">The pages that check spell this tree; the others may have held something newer.</p>\n",
        );
    }
    out.push_str(
        "<p class=\"key\"><span><i class=\"bar log\"></i>in log mode</span>\
         <span><i class=\"bar disk\"></i>in disk mode</span>\
         <span>a bar is a leaf, full at 24 keys; leaves stand by their keys, with their numbers below</span></p>\n",
    );
    out.push_str("<div class=\"tree\" role=\"group\" aria-label=\"Tree: arrow keys move\">");
    node(&mut out, mounted, ROOT);
    out.push_str("</div></section>\n");
    out
}

/// A node with all that is below it; a sound tree is nine levels deep at most.
fn node(out: &mut String, mounted: &Mounted, id: usize) {
    let node_here = &mounted.nodes[id];
    let words = escaped(&words(mounted, id));
    let mode = mode_name(mounted.rows[id].account.mode);
    let keys = node_here.pairs.len();
    if node_here.is_leaf() {
        out.push_str(&format!(
            "<button class=\"leaf {mode}\" id=\"n{id}\" title=\"{words}\"><i style=\"height:{}px\"></i>{id}</button>",
            BAR_HEIGHT * keys / MAX_KEYS
        ));
        return;
    }
    let name = format!("node {id}<small>{}, {mode} mode</small>", counted(keys, "key"));
    out.push_str(&format!(
        "\n<div class=\"branch\"><button class=\"{mode}\" id=\"n{id}\" title=\"{words}\">{name}</button><div>"
    ));
    for place in 0..=keys {
        node(out, mounted, node_here.child(place) as usize);
    }
    out.push_str("</div></div>");
}

/// A node in a line.
fn words(mounted: &Mounted, id: usize) -> String {
    let (node, row) = (&mounted.nodes[id], &mounted.rows[id]);
    let keys = match (node.pairs.first(), node.pairs.last()) {
        (Some(first), Some(last)) => format!("{}, {} to {}", counted(node.pairs.len(), "key"), first.key, last.key),
        _ => "no key".to_string(),
    };
    let link = match (node.is_leaf(), node.link) {
        (false, _) => String::new(),
        (true, NO_LINK) => ", the last leaf".to_string(),
        (true, next) => format!(", next leaf {next}"),
    };
    let pages: Vec<String> = row.pages.iter().map(usize::to_string).collect();
    let pages = format!("page{} {}", if pages.len() == 1 { "" } else { "s" }, pages.join(", "));
    let account = format!("{} mode with score {}", mode_name(row.account.mode), row.account.score);
    format!("node {id}: {} of {keys}{link}; {account}; on {pages}", shape_name(node.shape))
}

/// How full the nodes are: for each number of keys, how many nodes have it.
pub(super) fn fill(mounted: &Mounted) -> String {
    let counts = |leaves: bool, mode: Mode| {
        let mut counts = [0usize; MAX_KEYS + 1];
        let nodes = mounted.nodes.iter().zip(&mounted.rows);
        let here = nodes.filter(|(node, row)| node.is_leaf() == leaves && row.account.mode == mode);
        here.for_each(|(node, _)| counts[node.pairs.len().min(MAX_KEYS)] += 1);
        counts
    };
    let mut out = String::from("<section><h2>Fill of nodes</h2>\n<div class=\"charts\">");
    out.push_str(&histogram("Leaves by their keys", &counts(true, Mode::Log), &counts(true, Mode::Disk)));
    if mounted.nodes.iter().any(|node| !node.is_leaf()) {
        out.push_str(&histogram("Branches by their keys", &counts(false, Mode::Log), &counts(false, Mode::Disk)));
    }
    out.push_str("</div></section>\n");
    out
}

fn histogram(title: &str, log: &[usize], disk: &[usize]) -> String {
    let most = log.iter().zip(disk).map(|(log, disk)| log + disk).max().unwrap_or(0).max(1);
    let mut out = format!("\n<figure><figcaption>{title}</figcaption><div class=\"bars\">");
    for (keys, (log, disk)) in log.iter().zip(disk).enumerate() {
        let all = log + disk;
        let part = |count: &usize| 100.0 * *count as f64 / most as f64;
        let number = if all > 0 { all.to_string() } else { String::new() };
        let label = if keys % 4 == 0 { keys.to_string() } else { String::new() };
        out.push_str(&format!(
            "<div title=\"{} of {}: {log} in log mode, {disk} in disk mode\"><span>{number}</span>\
             <i class=\"disk\" style=\"height:{:.1}%\"></i><i class=\"log\" style=\"height:{:.1}%\"></i>\
             <b>{label}</b></div>",
            counted(all, "node"),
            counted(keys, "key"),
            part(disk),
            part(log)
        ));
    }
    out.push_str("</div></figure>");
    out
}
