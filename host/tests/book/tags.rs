//! Tags and lengths (document 02, P4) on both books: every tag with every length up to 300, as a command and on a page.

use crate::common::{number, number_of, prepared};
use crate::spelled::{checkpoint, log_page, pool_of, LAST_LEAF};
use yokehour_host::both::Call;
use yokehour_host::input::Input;
use yokehour_host::layout::{page_range, BLANK, MIN_BLOCKS};
use yokehour_host::wire::{page_sum, put_head};

const MOST_BYTES: usize = 300;

/// A tag, and the bytes of its payload.
type Kind = (u8, usize);

fn every_kind() -> impl Iterator<Item = Kind> {
    (0..=u8::MAX).flat_map(|tag| (0..=MOST_BYTES).map(move |bytes| (tag, bytes)))
}

/// A field of this tag and length whose payload is cut, or filled up with zeros.
fn field((tag, bytes): Kind, payload: &[u8]) -> Vec<u8> {
    let mut field = Vec::new();
    put_head(&mut field, tag, bytes);
    field.extend(payload.iter().copied().chain([0].into_iter().cycle()).take(bytes));
    field
}

const COMMANDS: [Kind; 6] = [(0x01, 4), (0x02, 8), (0x03, 4), (0x04, 10), (0x05, 1), (0x07, 4)];

/// A field that is a command where its tag and its length are: a scan of it is for one pair.
fn command(kind: Kind) -> Vec<u8> {
    let mut field = field(kind, &[]);
    *field.last_mut().expect("has a tag") |= u8::from(kind.1 > 0);
    field
}

/// The number of each batch on one pool.
fn numbers_of(batches: impl Iterator<Item = Vec<u8>>) -> impl Iterator<Item = u8> {
    let call = Call { answers: vec![0x66; 11], ..Call::new(prepared().pool, &[]) };
    batches.map(move |batch| number(Call { input: Input::Batch(batch), ..call.clone() }))
}

#[test]
fn six_kinds_of_fields_are_commands() {
    for (kind, number) in every_kind().zip(numbers_of(every_kind().map(command))) {
        assert_eq!(number, if COMMANDS.contains(&kind) { 0 } else { 3 }, "{kind:02x?}");
    }
}

#[test]
fn both_bytes_of_a_length_count() {
    let with_high_byte = |high: u8| COMMANDS.map(|kind| [&[kind.0, high], &command(kind)[2..]].concat());
    assert!(numbers_of(with_high_byte(0).into_iter()).all(|number| number == 0));
    assert!(numbers_of((1..=u8::MAX).flat_map(with_high_byte)).all(|number| number == 3));
}

/// What every page field here begins with: a sequence number; an id, type and link; an id, version and kind.
const PAYLOAD: [u8; 7] = [4, 0, 3, 0, 0, 0, 1];
const SEQUENCE: u32 = u32::from_be_bytes([4, 0, 3, 0]);

/// The number of a pool that has an old page of these fields, the last its sums.
fn number_with_old_page(kinds: &[Kind]) -> u8 {
    let (sums, kinds) = kinds.split_last().expect("has sums");
    let mut image: Vec<u8> = kinds.iter().flat_map(|&kind| field(kind, &PAYLOAD)).collect();
    image.extend(field(*sums, &page_sum(&image)));
    let pages = [vec![log_page(SEQUENCE + 1, &[LAST_LEAF]); 2], checkpoint(SEQUENCE + 2, 1)].concat();
    let mut pool = pool_of(MIN_BLOCKS, &pages);
    pool[page_range(0)].fill(BLANK);
    pool[..image.len()].copy_from_slice(&image);
    number_of(pool)
}

/// Whether a field is a whole node: 7 bytes, and 8 for each of up to 24 pairs.
fn is_node((tag, bytes): Kind) -> bool {
    tag == 0x11 && (0..=24).any(|pairs| bytes == 7 + 8 * pairs)
}

#[test]
fn a_field_alone_between_sequence_number_and_sums_is_an_entry_or_a_whole_node() {
    for kind in every_kind() {
        let expected = if kind == (0x12, 15) || is_node(kind) { 0 } else { 5 };
        assert_eq!(number_with_old_page(&[(0x10, 4), kind, (0x1F, 4)]), expected, "{kind:02x?}");
    }
}

#[test]
fn each_field_of_a_page_has_its_tag_and_its_length() {
    let pages: [&[Kind]; 3] = [
        &[(0x10, 4), (0x12, 15), (0x12, 15), (0x1F, 4)],
        &[(0x10, 4), (0x11, 23), (0x1F, 4)],
        &[(0x10, 4), (0x13, 32), (0x14, 6), (0x14, 6), (0x15, 2), (0x1F, 4)],
    ];
    for page in pages {
        assert_eq!(number_with_old_page(page), 0, "{page:02x?}");
        for (place, &(tag, bytes)) in page.iter().enumerate() {
            let others = (0..=u8::MAX).map(|other| (other, bytes)).chain((0..=MOST_BYTES).map(|other| (tag, other)));
            for kind in others.filter(|&kind| kind != (tag, bytes)) {
                let mut page = page.to_vec();
                page[place] = kind;
                let expected = if tag == 0x11 && is_node(kind) { 0 } else { 5 };
                assert_eq!(number_with_old_page(&page), expected, "{page:02x?}");
            }
        }
    }
}
