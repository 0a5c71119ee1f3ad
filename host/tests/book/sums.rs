//! Pages whose sums pass 65,535, on both books.

use crate::common::{entries_of, get, number_of, put, Fixture};
use crate::spelled::{checkpoint, log_page, pool_of, LAST_LEAF};
use yokehour_host::layout::page_range;
use yokehour_host::node::{Change, Pair};
use yokehour_host::page::{used, Page};

/// The sequence number and the version of pages here: FF but for a little.
const SEQUENCE: u32 = 0xDFFF_FFFF;
const VERSION: u32 = 0xDFFF_FFFE;
const GREATEST: Change = Change::Put(Pair { key: u32::MAX, pointer: u32::MAX });

/// The sums a and b of a page's bytes before its field 1F, with no modulus at all.
fn plain_sums(page: &[u8]) -> (u64, u64) {
    let (mut a, mut b) = (1u64, 0u64);
    for &byte in &page[..used(page).len() - 7] {
        a += u64::from(byte);
        b += a;
    }
    (a, b)
}

/// The field 1F that a page should have.
fn sum_field((a, b): (u64, u64)) -> [u8; 7] {
    let [b, a] = [b % 65_535, a % 65_535].map(|sum| (sum as u16).to_be_bytes());
    [0x1F, 0, 4, b[0], b[1], a[0], a[1]]
}

/// A log page of node 0 that sets its link and then puts the greatest pair so often.
fn page_of(puts: usize) -> Page {
    let mut page = log_page(SEQUENCE, &[vec![LAST_LEAF], vec![GREATEST; puts]].concat());
    entries_of(&mut page).iter_mut().for_each(|entry| entry.version = VERSION);
    page
}

fn pool_with(page: Page) -> Vec<u8> {
    pool_of(4, &[vec![page], checkpoint(SEQUENCE + 1, 1)].concat())
}

#[test]
fn worked_pages_with_sums_that_wrap() {
    // 1 to begin with, 10 00 04 are 20, DF FF FF FF are 988: 1,009. An entry's 12 00 0F are 33 and DF FF FF FE are
    // 987: with kind 3 and FF FF FF FF the link has 2,043, with kind 1 and eight FF a put has 3,061. So a is
    // 3,052, 6,113, 64,272, 67,333 and 82,638: the last two, less 65,535, are 1,798 (0706) and 17,103 (42CF).
    let table = [(0, 3_052, false), (1, 6_113, true), (20, 64_272, true), (21, 67_333, true), (26, 82_638, true)];
    for (puts, expected_a, b_wraps) in table {
        let pool = pool_with(page_of(puts));
        let bytes = &pool[page_range(0)];
        let (a, b) = plain_sums(bytes);
        assert_eq!((a, b > 65_535), (expected_a, b_wraps), "{puts} puts");
        assert!(used(bytes).ends_with(&sum_field((a, b))), "{puts} puts");
        assert_eq!(number_of(pool), 0, "{puts} puts");
    }
    assert!(used(&page_of(21).encode()).ends_with(&[0x07, 0x06]));
    assert!(used(&page_of(26).encode()).ends_with(&[0x42, 0xCF]));
}

#[test]
fn sums_that_were_not_reduced_or_by_another_modulus_are_refused() {
    let pool = pool_with(page_of(26));
    let end = used(&pool[page_range(0)]).len();
    let (a, b) = plain_sums(&pool[page_range(0)]);
    let with = |b: u64, a: u64| {
        let mut pool = pool.clone();
        pool[end - 4..end - 2].copy_from_slice(&(b as u16).to_be_bytes());
        pool[end - 2..end].copy_from_slice(&(a as u16).to_be_bytes());
        number_of(pool)
    };
    assert_eq!(with(b % 65_535, a % 65_535), 0);
    assert_eq!([with(b % 65_536, a % 65_535), with(b % 65_535, a % 65_536), with(b % 65_521, a % 65_521)], [5; 3]);
}

#[test]
fn a_sum_of_exactly_65535_is_0() {
    // 21 puts are 1,798 too many: seven bytes 1F and a 19 in place of eight FF are so much less.
    for (pointer, expected) in [(0x1F1F_1F18, 65_534), (0x1F1F_1F19, 65_535), (0x1F1F_1F1A, 65_536)] {
        let mut page = page_of(21);
        entries_of(&mut page)[21].change = Change::Put(Pair { key: 0x1F1F_1F1F, pointer });
        let bytes = page.encode();
        let (a, _) = plain_sums(&bytes);
        assert_eq!(a, expected);
        assert!(used(&bytes).ends_with(&((a % 65_535) as u16).to_be_bytes()));
        assert_eq!(number_of(pool_with(page)), 0);
    }
}

#[test]
fn pages_that_a_batch_writes_have_sums_that_wrap() {
    let mut fixture = Fixture { pool: pool_with(page_of(1)), answers: Vec::new() };
    let commands = [vec![put(u32::MAX, u32::MAX); 27], vec![get(u32::MAX)]].concat();
    assert_eq!(fixture.batch(&commands).number, 0);
    assert_eq!(fixture.lines().pop().as_deref(), Some("810004ffffffff"));
    let bytes = &fixture.pool[page_range(2)];
    let (a, b) = plain_sums(bytes);
    assert!(a > 65_535 && b > 65_535, "a is {a}, b is {b}");
    assert!(used(bytes).ends_with(&sum_field((a, b))));
    assert_eq!(entries_of(&mut fixture.page(2)).len(), 27);
}
