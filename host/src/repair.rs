//! The one byte that a broken page would check with.
//!
//! A page's sums tell a single changed byte: a how much it changed, b where it stands. A byte that spoils a field
//! instead stands near the flaw, and is found by trying.

use crate::page::{decode, Flaw, Image};
use crate::wire::{page_sum, FIELD_HEAD, SUM_BYTES};

/// One byte of a page and what it would have to be.
#[derive(Clone, Copy, PartialEq, Eq, Debug)]
pub struct Repair {
    pub byte: usize,
    pub value: u8,
}

/// The change of one byte that makes the page check, if there is exactly one.
pub fn repair(bytes: &Image, flaws: &[Flaw]) -> Option<Repair> {
    let first = flaws.first()?;
    let tried = match (first.why, flaws.len()) {
        (SUM_DIFFERS, 1) => by_sums(bytes, first.byte - FIELD_HEAD),
        _ => by_trying(bytes, first.byte),
    };
    let mut good = tried.into_iter().filter(|repair| decode(&repair.of(bytes)).is_ok());
    good.next().filter(|_| good.next().is_none())
}

/// What the reader says where the sums alone are wrong.
const SUM_DIFFERS: &str = "the sum differs";
/// How far from a flaw the byte may stand that made it: a log entry's length.
const NEAR: usize = 18;

impl Repair {
    /// The page with the byte changed.
    pub fn of(&self, bytes: &Image) -> Image {
        let mut image = *bytes;
        image[self.byte] = self.value;
        image
    }
}

/// Every change that fits the sums of the bytes before `end`, or one byte of the sums themselves.
fn by_sums(bytes: &Image, end: usize) -> Vec<Repair> {
    const MODULUS: i64 = 65_535;
    let sums = |of: &[u8]| [0, 2].map(|at| i64::from(u16::from_be_bytes([of[at], of[at + 1]])));
    let place = end + FIELD_HEAD;
    let right = page_sum(&bytes[..end]);
    let [b, a] = sums(&right);
    let [stored_b, stored_a] = sums(&bytes[place..place + SUM_BYTES]);
    let step = (stored_a - a).rem_euclid(MODULUS);
    let mut found = Vec::new();
    for (byte, &old) in bytes[..end].iter().enumerate() {
        for step in [step, step - MODULUS] {
            let value = i64::from(old) + step;
            let fits = (b + step * (end - byte) as i64 - stored_b).rem_euclid(MODULUS) == 0;
            if let (true, Ok(value)) = (fits && step != 0, u8::try_from(value)) {
                found.push(Repair { byte, value });
            }
        }
    }
    found.extend((0..SUM_BYTES).map(|at| Repair { byte: place + at, value: right[at] }));
    found
}

/// Every change of the page's first field, or of a byte at the flaw or shortly behind it.
fn by_trying(bytes: &Image, flaw: usize) -> Vec<Repair> {
    let near = flaw.max(NEAR)..(flaw + NEAR).min(bytes.len());
    let places = (0..NEAR).chain(near);
    places.flat_map(|byte| (0..=u8::MAX).map(move |value| Repair { byte, value })).collect()
}

#[cfg(test)]
mod tests {
    use super::*;
    use crate::layout::{BLANK, PAGE_BYTES};
    use crate::node::{Change, Node, Pair, Shape};
    use crate::page::{examine, Content, Entry, Page};

    fn pages() -> [Page; 2] {
        let change = |at: u32| Change::Put(Pair { key: 1000 + 7 * at, pointer: at });
        let entries = (0..20).map(|at| Entry { id: 3, version: 900, change: change(at) }).collect();
        let pairs = (0..24).map(|at| Pair { key: 50 * at, pointer: 0xFFFF - at }).collect();
        let node = Node { shape: Shape::Leaf, pairs, link: 5 };
        [Content::Log(entries), Content::Node { id: 3, node }].map(|content| Page { sequence: 1000, content })
    }

    #[test]
    fn most_changed_bytes_are_found_and_none_wrongly() {
        for page in pages() {
            let image = page.encode();
            let mut found = 0;
            for byte in (0..PAGE_BYTES).step_by(3) {
                let mut broken = image;
                broken[byte] ^= 1 + byte as u8 % 255;
                if let Some(repair) = repair(&broken, &examine(&broken).flaws) {
                    assert_eq!(repair, Repair { byte, value: image[byte] });
                    found += 1;
                }
            }
            assert!(found > 165, "{found} of 171");
        }
    }

    #[test]
    fn a_byte_of_a_blank_page_is_found() {
        for byte in [0, 7, 18, 300, 511] {
            let mut broken = [BLANK; PAGE_BYTES];
            broken[byte] = 0x10;
            assert_eq!(repair(&broken, &examine(&broken).flaws), Some(Repair { byte, value: BLANK }));
        }
    }

    #[test]
    fn two_changed_bytes_are_not_taken_for_one() {
        let image = pages()[0].encode();
        let mut broken = image;
        (broken[100], broken[200]) = (broken[100] ^ 0x11, broken[200] ^ 0x22);
        assert_eq!(repair(&broken, &examine(&broken).flaws), None);
    }
}
