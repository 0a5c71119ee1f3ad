//! The figures of a pool as JSON.

use super::super::json::Json;
use super::{newest_sequence, pages_left, Room};
use crate::account::Mode;
use crate::layout::{node_limit, BLOCK_PAGES, MAX_SEQUENCE};
use crate::marks::{counts, Mark};
use crate::mount::Mounted;
use crate::score_order;
use crate::tool::room::{levels, room};

/// All figures of a pool that opens, or has its sequence numbers used up.
pub(super) fn figures(name: &str, bytes: &[u8], mounted: &Mounted, marks: &[Mark]) -> Json {
    let limit = node_limit(marks.len() / BLOCK_PAGES);
    let Room { least, most } = room(&mounted.nodes, limit);
    let left = MAX_SEQUENCE.saturating_sub(mounted.last_sequence);
    Json::Object(vec![
        ("file", name.into()),
        ("bytes", bytes.len().into()),
        ("tariff", Json::List(mounted.tariff.numbers().map(Json::from).into())),
        ("score_limit", mounted.tariff.limit().into()),
        ("nodes", nodes(mounted, limit)),
        ("leaves", leaves(mounted)),
        ("room", Json::Object(vec![("least", least.into()), ("most", most.into())])),
        ("pages", Json::Object(pages(marks))),
        ("pages_to_compaction", pages_left(mounted).into()),
        ("sequence", Json::Object(vec![("last", mounted.last_sequence.into()), ("left", left.into())])),
        ("scores_in_node_order", score_order::check(bytes).is_ok().into()),
        ("blocks", Json::List(marks.chunks(BLOCK_PAGES).map(block).collect())),
    ])
}

fn nodes(mounted: &Mounted, limit: usize) -> Json {
    let count = mounted.nodes.len();
    let leaves = mounted.nodes.iter().filter(|node| node.is_leaf()).count();
    let log = mounted.rows.iter().filter(|row| row.account.mode == Mode::Log).count();
    Json::Object(vec![
        ("count", count.into()),
        ("limit", limit.into()),
        ("leaves", leaves.into()),
        ("branches", (count - leaves).into()),
        ("log", log.into()),
        ("disk", (count - log).into()),
        ("depth", levels(&mounted.nodes).len().into()),
    ])
}

fn leaves(mounted: &Mounted) -> Json {
    let fill = &levels(&mounted.nodes)[0];
    Json::Object(vec![
        ("keys", fill.iter().sum::<usize>().into()),
        ("least", fill.iter().min().copied().into()),
        ("most", fill.iter().max().copied().into()),
    ])
}

fn pages(marks: &[Mark]) -> Vec<(&'static str, Json)> {
    let (live, written) = counts(marks);
    let (dead, blank) = (written - live, marks.len() - written);
    vec![("live", live.into()), ("dead", dead.into()), ("blank", blank.into())]
}

fn block(marks: &[Mark]) -> Json {
    let mut fields = pages(marks);
    fields.push(("newest", newest_sequence(marks).into()));
    Json::Object(fields)
}
