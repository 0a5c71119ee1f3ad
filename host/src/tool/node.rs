//! `node`: one node in full, or a line for each.

use super::words::{Options, Words};
use super::{dump, Said, Stop, Verb};
use crate::mount::{read, Mounted};
use crate::spell;

pub(super) const VERB: Verb = Verb {
    name: "node",
    words: "FILE [ID]",
    about: "one node in full, or a line for each",
    more: "Where it lies, its mode and score, and its keys: a leaf's with their values, a branch's with the nodes\n\
           below. A pool that spells no tree is refused.",
    options: &dump::OPTIONS,
    run,
};

fn run(words: &mut Words<'_>, options: &Options) -> Result<Said, Stop> {
    let name = words.word("a file")?;
    let id = words.number_if_any("a node id")?;
    words.end()?;
    let mounted = spelled(name, &dump::read(name, options)?)?;
    let Some(id) = id else {
        return Ok(Said::text(spell::spell(&mounted).join("\n") + "\n"));
    };
    let none = || Stop::no(format!("{name}: no node {id}; there are 0 to {}", mounted.nodes.len() - 1));
    spell::node(&mounted, id as usize).map(Said::text).ok_or_else(none)
}

/// What a pool spells; one with its sequence numbers used up can be read too.
pub(super) fn spelled(name: &str, bytes: &[u8]) -> Result<Mounted, Stop> {
    read(bytes).map_err(|fault| Stop::no(format!("{name}: refused with {fault} (wallbook check {name} tells all)")))
}

#[cfg(test)]
mod tests {
    use crate::tool::trial::{said, text, Folder};

    #[test]
    fn a_node_in_full() {
        let folder = Folder::new("node");
        let pool = folder.prepared("p");
        text(&["put", &pool, "7", "100"]);
        let line = "node 0 leaf log score 0 version 1 link 4294967295 pairs 7:100\n";
        assert_eq!(text(&["node", &pool]), line);
        let full = "node 0: log mode, score 0, version 1, pages [0, 2]\n  leaf of 1 keys, next leaf 4294967295\n";
        let full = format!("{full}    7 -> 100\n");
        assert_eq!(text(&["node", &pool, "0"]), full);
        assert_eq!(said(&["node", &pool, "1"]).status, 1);
        assert_eq!(said(&["node", &pool, "x"]).status, 2);
    }
}
