//! Foreign pools with one flaw each, and the number that the flaw is refused with.

mod block;
mod byte;
mod checkpoint;
mod field;
mod log_page;
mod node;
mod sequence;
mod tariff;
mod tree;

use super::draft::Draft;
use super::spelling::Spelling;
use super::PoolStyle;
use crate::random::Random;
use Damage::{Bytes, Pages, Spelling as Spelled};

/// A flaw: its number, and how a pool gets it.
pub struct Flaw {
    pub number: u8,
    pub name: &'static str,
    damage: Damage,
}

/// What makes a flaw, by the stage of a draft that it goes into; it says whether this pool could take it.
enum Damage {
    Spelling(fn(&mut Random, &mut Spelling, usize) -> bool),
    Pages(fn(&mut Random, &mut Draft) -> bool),
    Bytes(fn(&mut Random, &Draft, &mut [u8]) -> bool),
}

/// A path of first pointers as long as a sound tree's longest, with a leaf alone beside each of its branches.
pub const LEFT_PATH: Flaw = flaw(7, "a leftmost path longer than the others", Spelled(tree::left_path));

/// All flaws.
pub const FLAWS: &[Flaw] = &[
    flaw(5, "a sequence number twice", Pages(sequence::twice)),
    flaw(5, "sequence number 0", Pages(sequence::zero)),
    flaw(5, "a version that is a page's sequence number", Pages(sequence::version_is_sequence)),
    flaw(5, "a version not below its page's sequence number", Pages(sequence::version_not_below)),
    flaw(5, "version 0", Pages(sequence::version_zero)),
    flaw(5, "a log page without an entry", Pages(log_page::no_entry)),
    flaw(5, "a checkpoint page neither full nor last", Pages(checkpoint::not_full)),
    flaw(5, "a checkpoint page with one score too many", Pages(checkpoint::overfull)),
    flaw(5, "no blank block", Pages(block::no_blank)),
    flaw(5, "a second partly written block", Pages(block::partly_written_twice)),
    flaw(5, "a partly written block without the newest page", Pages(block::newest_elsewhere)),
    flaw(5, "a blank page before a written one", Bytes(block::hole)),
    flaw(5, "an unknown kind", Bytes(byte::unknown_kind)),
    flaw(5, "a delete with a pointer", Bytes(byte::delete_with_pointer)),
    flaw(5, "a link with a key", Bytes(byte::link_with_key)),
    flaw(5, "a node page neither leaf nor branch", Bytes(byte::neither_leaf_nor_branch)),
    flaw(5, "a byte behind the sum", Bytes(byte::byte_behind_sum)),
    flaw(5, "a sum that is off", Bytes(byte::sum_off)),
    flaw(5, "no sum", Bytes(field::no_sum)),
    flaw(5, "FF first on a page that is not blank", Bytes(field::blank_first)),
    flaw(5, "no field 10", Bytes(field::no_sequence)),
    flaw(5, "field 10 twice", Bytes(field::sequence_twice)),
    flaw(5, "a field that no page has", Bytes(field::unknown)),
    flaw(5, "a field of another length", Bytes(field::other_length)),
    flaw(5, "two kinds of content", Bytes(field::two_kinds)),
    flaw(5, "two nodes on a node page", Bytes(field::node_twice)),
    flaw(5, "25 keys on a node page", Bytes(field::node_of_25_keys)),
    flaw(5, "28 entries on a log page", Bytes(field::entry_28)),
    flaw(5, "a checkpoint page without a score", Pages(checkpoint::no_score)),
    flaw(5, "a tariff behind a score", Bytes(field::tariff_behind_score)),
    flaw(5, "a count before a score", Bytes(field::count_before_score)),
    flaw(5, "two tariffs on a page", Bytes(field::tariff_twice)),
    flaw(5, "two counts on a page", Bytes(field::count_twice)),
    flaw(6, "a newest page that is no checkpoint page", Pages(checkpoint::newest_is_other)),
    flaw(6, "a log page within the checkpoint", Pages(checkpoint::log_page_within)),
    flaw(6, "an id with two scores", Pages(checkpoint::id_twice)),
    flaw(6, "a score of an id at the count", Pages(checkpoint::id_at_count)),
    flaw(6, "an id without a score", Pages(checkpoint::id_missing)),
    flaw(6, "a count of 0", Pages(checkpoint::count_zero)),
    flaw(6, "a count on an older page", Pages(checkpoint::count_twice)),
    flaw(6, "no count on the newest page", Pages(checkpoint::count_missing)),
    flaw(6, "no tariff", Pages(checkpoint::no_tariff)),
    flaw(7, "a leaf's link that leads elsewhere", Spelled(tree::link_elsewhere)),
    flaw(7, "a leaf's key above its bounds", Spelled(tree::leaf_key_above)),
    flaw(7, "a leaf's key below its bounds", Spelled(tree::leaf_key_below)),
    flaw(7, "a branch's key above its bounds", Spelled(tree::branch_key_above)),
    flaw(7, "a branch's key below its bounds", Spelled(tree::branch_key_below)),
    flaw(7, "a pointer to the root", Spelled(tree::pointer_to_root)),
    flaw(7, "a node reached twice", Spelled(tree::pointer_twice)),
    flaw(7, "a pointer to the count", Spelled(tree::pointer_to_count)),
    flaw(7, "a pointer above 16 bits", Spelled(tree::pointer_of_17_bits)),
    flaw(7, "a node that is not reached", Spelled(tree::not_reached)),
    flaw(7, "a leaf deeper than the others", Spelled(tree::deeper_leaf)),
    LEFT_PATH,
    flaw(7, "keys that descend", Spelled(node::keys_descend)),
    flaw(7, "a key twice", Spelled(node::key_twice)),
    flaw(7, "a branch without a key", Spelled(tree::branch_without_key)),
    flaw(7, "a 25th key for a moment", Spelled(node::key_25)),
    flaw(7, "leaf and branch links mixed", Spelled(node::links_mixed)),
    flaw(7, "no link", Spelled(node::no_link)),
    flaw(7, "a score at the limit", Spelled(tariff::score_at_limit)),
    flaw(7, "a tariff out of range", Spelled(tariff::tariff_out_of_range)),
    flaw(7, "more nodes than the limit", Spelled(tree::too_many_nodes)),
    flaw(7, "a node on four log pages", Pages(log_page::four_pages)),
    flaw(7, "a node on no page", Pages(log_page::on_no_page)),
    flaw(8, "a sequence number above 4,000,000,000", Pages(sequence::used_up)),
];

const fn flaw(number: u8, name: &'static str, damage: Damage) -> Flaw {
    Flaw { number, name, damage }
}

impl Flaw {
    /// A foreign pool with this flaw and no other, if the random pool could take it.
    pub fn make(&self, random: &mut Random, style: PoolStyle) -> Option<Vec<u8>> {
        let mut spelling = Spelling::random(random, style);
        let mut took = true;
        if let Spelled(damage) = self.damage {
            took = damage(random, &mut spelling, style.blocks);
        }
        let mut draft = Draft::of(random, &spelling, style);
        if let Pages(damage) = self.damage {
            took = damage(random, &mut draft);
        }
        if !took {
            return None;
        }
        let mut bytes = draft.bytes();
        if let Bytes(damage) = self.damage {
            took = damage(random, &draft, &mut bytes);
        }
        took.then_some(bytes)
    }
}
