//! Bytes: big-endian numbers, fields, the table of tags and lengths, the page sum.

use crate::layout::{MAX_KEYS, PAGE_BYTES};

/// Tags of commands.
pub const TAG_GET: u8 = 0x01;
pub const TAG_PUT: u8 = 0x02;
pub const TAG_DELETE: u8 = 0x03;
pub const TAG_SCAN: u8 = 0x04;
pub const TAG_PANEL: u8 = 0x05;
pub const TAG_CEILING: u8 = 0x07;
/// Tags of page fields.
pub const TAG_SEQUENCE: u8 = 0x10;
pub const TAG_NODE: u8 = 0x11;
pub const TAG_ENTRY: u8 = 0x12;
pub const TAG_TARIFF: u8 = 0x13;
pub const TAG_SCORE: u8 = 0x14;
pub const TAG_COUNT: u8 = 0x15;
pub const TAG_SUM: u8 = 0x1F;

/// Bytes of a field before its payload: the tag and the length.
pub const FIELD_HEAD: usize = 3;

/// Bytes of a key or a value, and of a pair of them.
pub const NUMBER_BYTES: usize = 4;
pub const PAIR_BYTES: usize = 2 * NUMBER_BYTES;
/// Payload bytes of a scan command, and of a panel's.
pub const SCAN_BYTES: usize = 10;
pub const PANEL_BYTES: usize = 1;
/// Payload bytes of page fields.
pub const SEQUENCE_BYTES: usize = 4;
pub const ENTRY_BYTES: usize = 15;
pub const TARIFF_BYTES: usize = 32;
pub const SCORE_BYTES: usize = 6;
pub const COUNT_BYTES: usize = 2;
pub const SUM_BYTES: usize = 4;
/// Payload bytes of a node page before its pairs.
pub const NODE_HEAD: usize = 7;

/// Which payload lengths a tag allows.
#[derive(Clone, Copy)]
enum Length {
    /// This length alone.
    Exactly(usize),
    /// 7 bytes and 8 for each of 0 to 24 pairs.
    NodePage,
}

/// The table of tags and lengths: an entry for each command and page field in use, and none besides.
const TABLE: [(u8, Length); 13] = [
    (TAG_GET, Length::Exactly(NUMBER_BYTES)),
    (TAG_PUT, Length::Exactly(PAIR_BYTES)),
    (TAG_DELETE, Length::Exactly(NUMBER_BYTES)),
    (TAG_SCAN, Length::Exactly(SCAN_BYTES)),
    (TAG_PANEL, Length::Exactly(PANEL_BYTES)),
    (TAG_CEILING, Length::Exactly(NUMBER_BYTES)),
    (TAG_SEQUENCE, Length::Exactly(SEQUENCE_BYTES)),
    (TAG_NODE, Length::NodePage),
    (TAG_ENTRY, Length::Exactly(ENTRY_BYTES)),
    (TAG_TARIFF, Length::Exactly(TARIFF_BYTES)),
    (TAG_SCORE, Length::Exactly(SCORE_BYTES)),
    (TAG_COUNT, Length::Exactly(COUNT_BYTES)),
    (TAG_SUM, Length::Exactly(SUM_BYTES)),
];

/// Says whether the table allows this payload length for the tag.
fn allows(tag: u8, length: usize) -> bool {
    match TABLE.iter().find(|&&(of, _)| of == tag) {
        None => false,
        Some(&(_, Length::Exactly(only))) => length == only,
        Some((_, Length::NodePage)) => {
            length >= NODE_HEAD
                && (length - NODE_HEAD).is_multiple_of(PAIR_BYTES)
                && (length - NODE_HEAD) / PAIR_BYTES <= MAX_KEYS
        }
    }
}

/// A field: its tag, and its payload as the part of the caller's bytes that it is.
#[derive(Clone, Copy, Debug)]
pub struct Field<'a> {
    pub tag: u8,
    pub payload: &'a [u8],
}

/// Takes the field at the front of `bytes`; nothing if its tag, its length or its end is wrong.
pub fn next_field(bytes: &[u8]) -> Option<(Field<'_>, &[u8])> {
    let (&[tag, high, low], rest) = bytes.split_first_chunk::<FIELD_HEAD>()?;
    let length = usize::from(u16::from_be_bytes([high, low]));
    if !allows(tag, length) || rest.len() < length {
        return None;
    }
    let (payload, rest) = rest.split_at(length);
    Some((Field { tag, payload }, rest))
}

/// Takes big-endian numbers off the front of a payload whose length the table has settled.
pub struct Numbers<'a>(pub &'a [u8]);

impl Numbers<'_> {
    /// The next `N` bytes.
    fn take<const N: usize>(&mut self) -> [u8; N] {
        let (head, rest) = self.0.split_first_chunk::<N>().expect("the tag table settled this length");
        self.0 = rest;
        *head
    }

    pub fn u8(&mut self) -> u8 {
        self.take::<1>()[0]
    }

    pub fn u16(&mut self) -> u16 {
        u16::from_be_bytes(self.take())
    }

    pub fn u32(&mut self) -> u32 {
        u32::from_be_bytes(self.take())
    }
}

/// Lays a field's tag and length; its payload follows.
pub fn put_head(out: &mut Vec<u8>, tag: u8, length: usize) {
    let length = u16::try_from(length).expect("fields are shorter than 64 KB");
    out.push(tag);
    out.extend(length.to_be_bytes());
}

/// What the two sums of a page are taken modulo.
pub const SUM_MODULUS: u32 = 65_535;

/// The two sums of field 1F, b then a, over the bytes before it.
pub fn page_sum(bytes: &[u8]) -> [u8; SUM_BYTES] {
    let [b, a] = unreduced_sums(bytes).map(|sum| ((sum % SUM_MODULUS) as u16).to_be_bytes());
    [b[0], b[1], a[0], a[1]]
}

/// The two sums, b then a, as they would be without a modulus.
///
/// A page is short enough that neither overflows 32 bits, so that they need to be reduced only once.
pub fn unreduced_sums(bytes: &[u8]) -> [u32; 2] {
    debug_assert!(bytes.len() <= PAGE_BYTES);
    let (mut a, mut b) = (1u32, 0u32);
    let mut chunks = bytes.chunks_exact(SUM_CHUNK);
    for chunk in &mut chunks {
        // Over a chunk, b takes the old a once a byte, and each byte once for itself and each one after it.
        let (mut plain, mut weighted) = (0u32, 0u32);
        for (at, &byte) in chunk.iter().enumerate() {
            plain += u32::from(byte);
            weighted += u32::from(byte) * (SUM_CHUNK - at) as u32;
        }
        b += SUM_CHUNK as u32 * a + weighted;
        a += plain;
    }
    for &byte in chunks.remainder() {
        a += u32::from(byte);
        b += a;
    }
    [b, a]
}

/// Bytes summed side by side, so that the compiler can use vector instructions.
const SUM_CHUNK: usize = 32;

/// FNV-1a with 64 bits, which names a pool in traces.
pub fn fnv1a64(bytes: &[u8]) -> u64 {
    bytes.iter().fold(0xcbf2_9ce4_8422_2325, |hash, &byte| (hash ^ u64::from(byte)).wrapping_mul(0x0000_0100_0000_01b3))
}

/// Bytes as lower-case hexadecimal digits.
pub fn to_hex(bytes: &[u8]) -> String {
    bytes.iter().map(|byte| format!("{byte:02x}")).collect()
}

/// Bytes from hexadecimal digits of either case; nothing if there is another character or half a byte.
pub fn from_hex(text: &str) -> Option<Vec<u8>> {
    let digits: Option<Vec<u8>> = text.chars().map(|c| c.to_digit(16).map(|digit| digit as u8)).collect();
    let digits = digits?;
    let (pairs, rest) = digits.as_chunks::<2>();
    rest.is_empty().then(|| pairs.iter().map(|[high, low]| high << 4 | low).collect())
}

#[cfg(test)]
mod tests {
    use super::*;

    /// The sum as document 01 words it, a byte and a reduction at a time.
    fn sum_by_the_words(bytes: &[u8]) -> [u8; SUM_BYTES] {
        let (mut a, mut b) = (1u32, 0u32);
        for &byte in bytes {
            a = (a + u32::from(byte)) % 65_535;
            b = (b + a) % 65_535;
        }
        let (b, a) = ((b as u16).to_be_bytes(), (a as u16).to_be_bytes());
        [b[0], b[1], a[0], a[1]]
    }

    #[test]
    fn sum_is_that_of_the_words() {
        for length in 0..=PAGE_BYTES {
            let bytes: Vec<u8> = (0..length).map(|i| (i * 37 + length * 11) as u8).collect();
            assert_eq!(page_sum(&bytes), sum_by_the_words(&bytes), "length {length}");
            assert_eq!(page_sum(&vec![0xFF; length]), sum_by_the_words(&vec![0xFF; length]), "length {length}");
        }
    }

    #[test]
    fn sum_that_is_a_multiple_is_zero() {
        // 1 + 256 x 255 + 254 = 65,535: a reduces to 0, never to FFFF.
        let mut bytes = vec![0xFF; 256];
        bytes.push(254);
        assert_eq!(page_sum(&bytes)[2..], [0, 0]);
    }

    #[test]
    fn fields_follow_the_table() {
        assert!(next_field(&[0x01, 0, 4, 1, 2, 3, 4]).is_some());
        assert!(next_field(&[0x01, 0, 3, 1, 2, 3]).is_none(), "a wrong length");
        assert!(next_field(&[0x01, 0, 4, 1, 2, 3]).is_none(), "past the end");
        assert!(next_field(&[0x80, 0, 0]).is_none(), "answer tags are in no table");
    }

    #[test]
    fn every_tag_and_length_is_allowed_where_the_documents_have_it() {
        let pairs = (0..=u8::MAX).flat_map(|tag| (0..=300).map(move |length| (tag, length)));
        let below_nodes = [(0x01, 4), (0x02, 8), (0x03, 4), (0x04, 10), (0x05, 1), (0x07, 4), (0x10, 4)];
        let nodes = (0..=24).map(|pairs| (0x11, 7 + 8 * pairs));
        let above_nodes = [(0x12, 15), (0x13, 32), (0x14, 6), (0x15, 2), (0x1F, 4)];
        let expected = below_nodes.into_iter().chain(nodes).chain(above_nodes);
        assert!(pairs.filter(|&(tag, length)| allows(tag, length)).eq(expected));
    }

    #[test]
    fn hexadecimal_goes_both_ways() {
        assert_eq!(from_hex("00fFa5"), Some(vec![0, 255, 165]));
        assert_eq!(to_hex(&[0, 255, 165]), "00ffa5");
        assert_eq!(from_hex("0"), None);
        assert_eq!(from_hex("0g"), None);
    }
}
