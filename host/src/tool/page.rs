//! `page`: one page, field by field.

use super::words::{Options, Words};
use super::{dump, Said, Stop, Verb};
use crate::layout::{page_at, BLOCK_PAGES, PAGE_BYTES};
use crate::mount::{self, Row};
use crate::page::{examine, is_blank, Reading};
use crate::spell::shape_name;
use crate::wire::{next_field, page_sum, to_hex, Field, Numbers, FIELD_HEAD, NODE_HEAD, PAIR_BYTES};
use crate::wire::{TAG_COUNT, TAG_ENTRY, TAG_NODE, TAG_SCORE, TAG_SEQUENCE, TAG_SUM, TAG_TARIFF};

pub(super) const VERB: Verb = Verb {
    name: "page",
    words: "FILE N",
    about: "one page, field by field; pages count through the pool from 0, 32 a block",
    more: "Each line has the byte where it begins, the bytes and what they say. Live is what belongs to a node's\n\
           greatest version; where the pool spells no tree that is not known.\n\
           Exit status 1 if the page does not check.",
    options: &dump::OPTIONS,
    run,
};

fn run(words: &mut Words<'_>, options: &Options) -> Result<Said, Stop> {
    let (name, page) = (words.word("a file")?, words.number("a page")? as usize);
    words.end()?;
    let pool = dump::read(name, options)?;
    let bytes = page_at(&pool, page).ok_or_else(|| Stop::wrong(format!("{name}: {}", no_page(&pool, page))))?;
    let mut text = format!("page {page}: block {}, place {}\n", page / BLOCK_PAGES, page % BLOCK_PAGES);
    if is_blank(bytes) {
        return Ok(Said::text(text + "blank\n"));
    }
    let Reading { flaws, .. } = examine(bytes);
    flaws.iter().for_each(|flaw| text.push_str(&format!("does not check: {flaw}\n")));
    let rows = mount::examine(&pool).mounted.map(|mounted| mounted.rows);
    text.push_str(&fields(bytes, rows.as_deref()));
    Ok(Said { text, status: u8::from(!flaws.is_empty()), ..Said::default() })
}

fn no_page(pool: &[u8], page: usize) -> String {
    match (pool.len() / PAGE_BYTES).checked_sub(1) {
        Some(last) => format!("no page {page}; {} bytes have pages 0 to {last}", pool.len()),
        None => format!("no page {page}; {} bytes are less than a page", pool.len()),
    }
}

/// The fields of a page, a line each and one more for each pair of a node page.
fn fields(bytes: &[u8], rows: Option<&[Row]>) -> String {
    let (mut out, mut at, mut sequence) = (String::new(), 0, 0);
    while let Some((field, _)) = next_field(&bytes[at..]) {
        if field.tag == TAG_SEQUENCE {
            sequence = Numbers(field.payload).u32();
        }
        let end = at + FIELD_HEAD + field.payload.len();
        let shown = if field.tag == TAG_NODE { at + FIELD_HEAD + NODE_HEAD } else { end };
        out.push_str(&line(at, &bytes[at..shown], &meaning(field, &bytes[..at], sequence, rows)));
        for start in (shown..end).step_by(PAIR_BYTES) {
            let pair = &bytes[start..start + PAIR_BYTES];
            let mut numbers = Numbers(pair);
            out.push_str(&line(start, pair, &format!("  key {} -> {}", numbers.u32(), numbers.u32())));
        }
        at = end;
    }
    let rest = &bytes[at..];
    match rest.iter().rposition(|&byte| byte != crate::layout::BLANK) {
        Some(last) => out.push_str(&line(at, &rest[..=last], "no field")),
        None if rest.is_empty() => {}
        None => out.push_str(&format!("{at:>5}  ff to the page's end\n")),
    }
    out
}

/// A line of the table; long bytes stand on a line of their own.
fn line(at: usize, bytes: &[u8], meaning: &str) -> String {
    let hex = match bytes.split_first_chunk::<FIELD_HEAD>() {
        Some((head, payload)) if bytes.len() != PAIR_BYTES => format!("{} {}", to_hex(head), to_hex(payload)),
        _ => to_hex(bytes),
    };
    if hex.len() > HEX_COLUMN {
        return format!("{at:>5}  {meaning}\n       {hex}\n");
    }
    format!("{at:>5}  {hex:<HEX_COLUMN$}  {meaning}\n")
}

const HEX_COLUMN: usize = 37;

fn meaning(field: Field<'_>, before: &[u8], sequence: u32, rows: Option<&[Row]>) -> String {
    let mut numbers = Numbers(field.payload);
    match field.tag {
        TAG_SEQUENCE => format!("sequence number {}", numbers.u32()),
        TAG_ENTRY => entry(numbers, rows),
        TAG_NODE => {
            let (id, kind, link) = (numbers.u16(), numbers.u8(), numbers.u32());
            let pairs = (field.payload.len() - NODE_HEAD) / PAIR_BYTES;
            format!("{}node {id}: {} of {pairs} keys", state(rows, id, sequence), kind_and_link(kind, link))
        }
        TAG_TARIFF => {
            let tariff: Vec<String> = (0..8).map(|_| numbers.u32().to_string()).collect();
            format!("tariff {}", tariff.join(" "))
        }
        TAG_SCORE => format!("node {} has score {}", numbers.u16(), numbers.u32()),
        TAG_COUNT => format!("{} nodes", numbers.u16()),
        TAG_SUM if field.payload == page_sum(before) => "sums, which are right".to_string(),
        TAG_SUM => format!("sums, which would be {}", to_hex(&page_sum(before))),
        tag => format!("field {tag:02x}, which belongs on no page"),
    }
}

fn entry(mut numbers: Numbers<'_>, rows: Option<&[Row]>) -> String {
    let (id, version, kind) = (numbers.u16(), numbers.u32(), numbers.u8());
    let (key, pointer) = (numbers.u32(), numbers.u32());
    let change = match kind {
        1 => format!("put {key} -> {pointer}"),
        2 => format!("delete {key}"),
        _ => kind_and_link(kind, pointer),
    };
    format!("{}entry of node {id}, version {version}: {change}", state(rows, id, version))
}

fn kind_and_link(kind: u8, link: u32) -> String {
    use crate::node::Shape::{Branch, Leaf};
    match (kind, link) {
        (3, crate::layout::NO_LINK) => format!("{}, no next leaf", shape_name(Leaf)),
        (3, _) => format!("{}, next leaf {link}", shape_name(Leaf)),
        (4, _) => format!("{}, last pointer {link}", shape_name(Branch)),
        _ => format!("unknown kind {kind}"),
    }
}

/// Whether a version of a node counts, if that is known.
fn state(rows: Option<&[Row]>, id: u16, version: u32) -> &'static str {
    match rows.map(|rows| rows.get(usize::from(id)).is_some_and(|row| row.version == version)) {
        None => "",
        Some(true) => "live ",
        Some(false) => "dead ",
    }
}

#[cfg(test)]
mod tests {
    use crate::tool::trial::{said, text, Folder};

    #[test]
    fn a_page_is_taken_apart() {
        let folder = Folder::new("page");
        let pool = folder.prepared("p");
        let log = "page 0: block 0, place 0
    0  100004 00000002                        sequence number 2
    7  12000f 000000000001030000000 0ffffffff  live entry of node 0, version 1: leaf, no next leaf
   25  1f0004 0e7a0438                        sums, which are right
   32  ff to the page's end\n";
        assert_eq!(text(&["page", &pool, "0"]), log.replace("0000 0ff", "00000ff"));
        let checkpoint = text(&["page", &pool, "1"]);
        for part in ["tariff 3 1 2 1 4 4 3 2", "node 0 has score 0", "1 nodes", "sums, which are right"] {
            assert!(checkpoint.contains(part), "{checkpoint}");
        }
        assert_eq!(text(&["page", &pool, "127"]), "page 127: block 3, place 31\nblank\n");
        for beyond in ["128", "4294967295"] {
            let none = said(&["page", &pool, beyond]);
            assert!(none.status == 2 && none.note.contains("65536 bytes have pages 0 to 127"), "{none:?}");
        }
    }

    #[test]
    fn a_page_that_does_not_check_is_told_with_its_flaws() {
        let folder = Folder::new("bad-page");
        let pool = folder.prepared("p");
        let mut bytes = std::fs::read(&pool).expect("is there");
        bytes[22] ^= 1;
        std::fs::write(&pool, &bytes).expect("is written");
        let page = said(&["page", &pool, "0"]);
        assert_eq!(page.status, 1);
        assert!(page.text.contains("does not check: byte 28: the sum differs\n"), "{}", page.text);
        assert!(page.text.contains("sums, which would be "), "{}", page.text);
        bytes[7] = 0x77;
        std::fs::write(&pool, &bytes).expect("is written");
        let page = said(&["page", &pool, "0"]);
        assert!(page.text.contains("no field\n"), "{}", page.text);
        assert!(page.text.contains("byte 7: no valid field behind the sequence number"), "{}", page.text);
    }
}
