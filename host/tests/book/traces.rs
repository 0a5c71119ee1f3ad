//! Two traces, byte for byte.

use crate::common::{delete, get, plain, put, Fixture, FREE, WORKED};
use yokehour_host::page::{Content, Entry};

#[test]
fn prepare_and_the_worked_batch() {
    let mut fixture = Fixture::prepared(4, WORKED);
    assert_eq!(fixture.hash(), "e5938a6f1717e51f");
    let checkpoint = "10000400000003 130020 00000003 00000001 00000002 00000001 00000004 00000004 00000003 00000002
                      140006 0000 00000000 150002 0001 1f0004 12a50091";
    assert_eq!(fixture.page_hex(1), plain(checkpoint));

    let outcome = fixture.batch(&[put(7, 100), get(7), delete(7), get(7)]);
    assert_eq!((outcome.number, outcome.charge()), (0, 14));
    assert_eq!(fixture.hash(), "cb649dfb17d509a7");
    let log = "10000400000004 12000f 0000 00000001 01 00000007 00000064
               12000f 0000 00000001 02 00000007 00000000 1f0004 135000d2";
    assert_eq!(fixture.page_hex(2), plain(log));
}

#[test]
fn a_split_of_the_root() {
    let mut fixture = Fixture::prepared(4, FREE);
    let first = "10000400000002 12000f 0000 00000001 03 00000000 ffffffff 1f0004 0e7a0438";
    assert_eq!(fixture.page_hex(0), plain(first));

    let puts: Vec<_> = (0..25).map(|key| put(key, 100 + key)).collect();
    assert_eq!(fixture.batch(&puts).number, 0);
    assert_eq!(fixture.hash(), "fee1dd5900eb9ac1");

    assert_eq!([2, 3, 4, 5].map(|page| fixture.page(page).sequence), [4, 7, 9, 10]);
    assert_eq!(entries(&fixture, 2).len(), 24);
    let versions: Vec<(u16, u32)> = entries(&fixture, 3).iter().map(|entry| (entry.id, entry.version)).collect();
    assert_eq!(versions, [vec![(1, 5); 13], vec![(2, 6); 14]].concat());
    let versions: Vec<(u16, u32)> = entries(&fixture, 4).iter().map(|entry| (entry.id, entry.version)).collect();
    assert_eq!(versions, [(0, 8); 2]);
}

fn entries(fixture: &Fixture, page: usize) -> Vec<Entry> {
    match fixture.page(page).content {
        Content::Log(entries) => entries,
        other => panic!("no log page: {other:?}"),
    }
}
