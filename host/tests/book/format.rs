//! The two worked pools of docs/FORMAT.md, built from its tables byte by byte: they are what the page says of them.

use crate::common::{delete, get, put, scan, Fixture, WORKED};
use yokehour_host::account::Mode;
use yokehour_host::command::{Answer, Command};
use yokehour_host::layout::{BLANK, BLOCK_BYTES, MAX_SCAN_PAIRS, MIN_BLOCKS, NO_LINK, PAGE_BYTES};
use yokehour_host::markdown::grouped;
use yokehour_host::mount::{mount, Survey};
use yokehour_host::node::{Node, Pair, Shape};
use yokehour_host::wire::{from_hex, to_hex, TAG_SUM};

const FORMAT: &str = include_str!("../../../docs/FORMAT.md");

/// What the sums of a page are taken by.
const MODULUS: u32 = 65_535;

/// A row of the page's tables: what stands where, and what it means.
struct Row {
    offset: usize,
    /// None stand for FF to the end of a page.
    bytes: Vec<u8>,
    meaning: &'static str,
}

/// A worked pool: the section's text, its tables of bytes, and the pool that they make.
struct Worked {
    text: &'static str,
    tables: Vec<Vec<Row>>,
    fixture: Fixture,
}

impl Worked {
    fn of_section(number: usize) -> Worked {
        let text = section(number);
        let tables: Vec<Vec<Row>> =
            tables(text, &["offset", "bytes", "meaning"]).iter().map(|rows| parse(rows)).collect();
        let mut pool = vec![BLANK; MIN_BLOCKS * BLOCK_BYTES];
        for Row { offset, bytes, .. } in tables.iter().flatten() {
            pool[*offset..][..bytes.len()].copy_from_slice(bytes);
        }
        Worked { text, tables, fixture: Fixture { pool, answers: Vec::new() } }
    }

    /// The sums before any remainder, b then a, of the bytes that a row says.
    fn sums(&self, row: &Row) -> (u32, u32) {
        let bytes = &self.fixture.pool[row.offset / PAGE_BYTES * PAGE_BYTES..row.offset];
        bytes.iter().fold((0, 1), |(b, a), &byte| (b + a + u32::from(byte), a + u32::from(byte)))
    }

    /// The rows of field 1F.
    fn sum_rows(&self) -> impl Iterator<Item = &Row> {
        self.tables.iter().flatten().filter(|row| row.bytes.first() == Some(&TAG_SUM))
    }
}

/// The text of a section.
fn section(number: usize) -> &'static str {
    let start = FORMAT.find(&format!("\n## {number}. ")).expect("the section is there") + 1;
    let text = &FORMAT[start..];
    text.find("\n## ").map_or(text, |end| &text[..end])
}

/// The rows of the tables with this head.
fn tables(text: &'static str, head: &[&str]) -> Vec<Vec<Vec<&'static str>>> {
    let mut tables = Vec::new();
    let mut lines = text.lines();
    while let Some(line) = lines.next() {
        if cells(line).as_deref() == Some(head) {
            tables.push(lines.by_ref().skip(1).map_while(cells).collect());
        }
    }
    tables
}

/// The cells of a table's line.
fn cells(line: &'static str) -> Option<Vec<&'static str>> {
    let inside = line.strip_prefix("| ")?.strip_suffix(" |")?;
    Some(inside.split(" | ").collect())
}

fn parse(rows: &[Vec<&'static str>]) -> Vec<Row> {
    let row = |cells: &Vec<&'static str>| {
        let [offset, bytes, meaning] = cells[..] else { panic!("three cells expected: {cells:?}") };
        let hex: String = bytes.trim_matches('`').split(' ').collect();
        let bytes = if hex == "ff.." { Vec::new() } else { from_hex(&hex).expect("is hexadecimal") };
        Row { offset: decimal(offset) as usize, bytes, meaning }
    };
    rows.iter().map(row).collect()
}

/// A decimal number, its digits in groups of three.
fn decimal(text: &str) -> u32 {
    let number = text.replace(',', "").parse().expect("is a number");
    assert_eq!(grouped(u128::from(number)), text);
    number
}

#[test]
fn tables_lie_page_by_page_without_a_gap() {
    for worked in [6, 7].map(Worked::of_section) {
        for rows in &worked.tables {
            let page = rows[0].offset / PAGE_BYTES;
            let head = format!("Page {page} (offset {}), a ", grouped(rows[0].offset as u128));
            assert!(worked.text.contains(&head), "{head}");
            let mut next = page * PAGE_BYTES;
            for row in rows {
                assert_eq!(row.offset, next, "{}", row.meaning);
                next += row.bytes.len();
            }
            let last = rows.last().expect("a table has rows");
            let end = grouped(((page + 1) * PAGE_BYTES - 1) as u128);
            assert_eq!((last.bytes.len(), last.meaning), (0, format!("to offset {end}").as_str()));
        }
    }
}

#[test]
fn the_sums_are_those_of_the_words() {
    for worked in [6, 7].map(Worked::of_section) {
        assert_eq!(worked.sum_rows().count(), worked.tables.len(), "each page has its sums");
        for row in worked.sum_rows() {
            let (b, a) = worked.sums(row);
            let (b, a) = (b % MODULUS, a % MODULUS);
            let from = grouped((row.offset / PAGE_BYTES * PAGE_BYTES) as u128);
            let to = grouped(row.offset as u128 - 1);
            assert_eq!(row.meaning, format!("sums of bytes {from} to {to}: b = {b:04X}, a = {a:04X}"));
            assert_eq!(to_hex(&row.bytes), format!("1f0004{b:04x}{a:04x}"));
        }
    }
}

#[test]
fn one_sum_passes_the_modulus() {
    let worked = Worked::of_section(7);
    let sums: Vec<(u32, u32)> = worked.sum_rows().map(|row| worked.sums(row)).collect();
    let [b] = sums.iter().flat_map(|&(b, a)| [b, a]).filter(|&sum| sum >= MODULUS).collect::<Vec<_>>()[..] else {
        panic!("one sum alone passes: {sums:?}")
    };
    let (before, after) = (grouped(b.into()), grouped((b - MODULUS).into()));
    let said = format!("b would be {before} here; less 65,535 it is {after}, which is {:04X}.", b - MODULUS);
    assert!(worked.text.contains(&said), "{said}");
}

#[test]
fn the_hashes_are_those_of_the_pools() {
    for worked in [6, 7].map(Worked::of_section) {
        let said = format!("FNV-1a-64 of all its bytes is `{}`.", worked.fixture.hash());
        assert!(worked.text.contains(&said), "{said}");
    }
}

#[test]
fn section_6_is_what_prepare_makes() {
    assert_eq!(Worked::of_section(6).fixture.pool, Fixture::prepared(MIN_BLOCKS, WORKED).pool);
}

/// The map that section 7 ends with.
fn map() -> Vec<Pair> {
    let [rows] = &tables(section(7), &["key", "value"])[..] else { panic!("one map") };
    rows.iter().map(|cells| Pair { key: decimal(cells[0]), pointer: decimal(cells[1]) }).collect()
}

#[test]
fn section_7_answers_as_the_page_says_on_both_books() {
    let mut fixture = Worked::of_section(7).fixture;
    let map = map();
    assert_eq!(map.len(), 5);
    let mut commands: Vec<Command> = map.iter().map(|pair| get(pair.key)).collect();
    commands.extend([get(9), scan(0, u32::MAX, MAX_SCAN_PAIRS)]);
    let mut answers: Vec<Answer> = map.iter().map(|pair| Answer::Got(pair.pointer)).collect();
    answers.extend([Answer::Absent, Answer::Pairs(map)]);
    let mut expected = Vec::new();
    answers.iter().for_each(|answer| answer.encode(&mut expected));
    assert_eq!((fixture.batch(&commands).number, &fixture.answers), (0, &expected));
    // The book goes on with it: a value replaced in the log, one on a page, and a key deleted.
    assert_eq!(fixture.batch(&[put(7, 1), put(20, 2), delete(3), scan(0, 20, 32)]).number, 0);
    let after = ["82000400000065", "820004ffffffff", "83000400000000", "84001000000007000000010000001400000002"];
    assert_eq!(fixture.lines(), after);
}

#[test]
fn section_7_is_read_as_the_page_says() {
    let Worked { text, fixture, .. } = Worked::of_section(7);
    let survey = Survey::of(&fixture.pool, MIN_BLOCKS);
    let order: Vec<String> = survey.pages.iter().map(|(page, read)| format!("{page} ({})", read.sequence)).collect();
    let (newest, others) = order.split_last().expect("is written");
    let said = format!("by rising sequence number are {} and {newest}.", others.join(", "));
    assert!(text.contains(&said), "{said}");

    let mounted = mount(&fixture.pool).expect("opens");
    assert_eq!((mounted.tariff.numbers(), mounted.checkpoint_pages), (WORKED, vec![32]));
    let account = |id: usize| (mounted.rows[id].account.mode, mounted.rows[id].account.score);
    assert_eq!([0, 1, 2].map(account), [(Mode::Disk, 0), (Mode::Disk, 4), (Mode::Log, 3)]);
    let place = |id: usize| (mounted.rows[id].version, &mounted.rows[id].pages[..]);
    assert_eq!([0, 1, 2].map(place), [(27, &[35][..]), (26, &[36]), (12, &[34, 33])]);
    let map = map();
    let root = Node { shape: Shape::Branch, pairs: vec![Pair { key: 20, pointer: 2 }], link: 1 };
    let right = Node { shape: Shape::Leaf, pairs: map[2..].to_vec(), link: NO_LINK };
    let left = Node { shape: Shape::Leaf, pairs: map[..2].to_vec(), link: 1 };
    assert_eq!(mounted.nodes, [root, right, left]);
}
