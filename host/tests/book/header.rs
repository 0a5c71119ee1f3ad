//! The C header, held against the sources by name: its calls, its refusals and its macros, no name more and none less.

use std::fs;
use std::path::Path;

use crate::stack::CORTEX_STACK_BYTES;
use yokehour_host::layout::{BLOCK_BYTES, MAX_BATCH_BYTES, PANELS, TABLE_BYTES_PER_BLOCK};
use yokehour_host::refusal::words;
use yokehour_host::tree::IDS_USED_UP;

/// The text of a file of the repository.
pub fn text(name: &str) -> String {
    let path = Path::new(env!("CARGO_MANIFEST_DIR")).join("..").join(name);
    fs::read_to_string(&path).unwrap_or_else(|error| panic!("{name}: {error}"))
}

/// What stands between two words of a text, the first time.
fn between<'a>(text: &'a str, from: &str, to: &str) -> &'a str {
    let rest = text.split_once(from).unwrap_or_else(|| panic!("no {from}")).1;
    rest.split_once(to).unwrap_or_else(|| panic!("no {to} behind {from}")).0
}

/// The calls that a file declares behind a word, each from its name to the end of its parameters, with single blanks.
fn declarations(text: &str, word: &str) -> Vec<String> {
    let whole = text.split_whitespace().collect::<Vec<_>>().join(" ");
    let first_words = format!("{word} wall_book_");
    let calls = whole.split(&first_words).skip(1);
    let parameters = calls.filter_map(|rest| rest.split_once(')').map(|(call, _)| call));
    parameters.map(|call| call.replace("( ", "(").trim_end_matches([' ', ',']).to_string()).collect()
}

/// How another language writes the types of the proved calls; `@` is the parameter.
type Spelling = [(&'static str, &'static str); 5];

const IN_C: Spelling = [
    ("&mut [u8]", "uint8_t *@, size_t @_bytes"),
    ("&[u8]", "const uint8_t *@, size_t @_bytes"),
    ("u32", "uint32_t @"),
    ("&mut usize", "size_t *@"),
    ("&mut [u64; PANELS]", "uint64_t @[WALL_BOOK_PANELS]"),
];

const IN_RUST: Spelling = [
    ("&mut [u8]", "@: *mut u8, @_bytes: usize"),
    ("&[u8]", "@: *const u8, @_bytes: usize"),
    ("u32", "@: u32"),
    ("&mut usize", "@: *mut usize"),
    ("&mut [u64; PANELS]", "@: *mut u64"),
];

/// The proved calls as they stand in their source, declared in another language.
fn proved_calls(spelling: &Spelling) -> Vec<String> {
    let calls = declarations(&text("crates/wall_book_c/src/lib.rt"), "pub extern \"C\" fn");
    let spelt = |parameter: &str| {
        let (name, kind) = parameter.split_once(": ").unwrap_or_else(|| panic!("no type: {parameter}"));
        let known = spelling.iter().find(|(proved, _)| *proved == kind);
        known.unwrap_or_else(|| panic!("a type for C: {kind}")).1.replace('@', name)
    };
    let declared = |call: &String| {
        let (name, parameters) = call.split_once('(').expect("has parameters");
        format!("{name}({}", parameters.split(", ").map(spelt).collect::<Vec<_>>().join(", "))
    };
    calls.iter().map(declared).collect()
}

#[test]
fn the_calls_are_declared_as_they_are_proved() {
    let calls = declarations(&text("include/wall_book.h"), "uint32_t");
    let names: Vec<&str> = calls.iter().filter_map(|call| Some(call.split_once('(')?.0)).collect();
    assert_eq!(names, ["prepare", "batch", "desk"]);
    assert_eq!(calls, proved_calls(&IN_C));
    assert_eq!(declarations(&text("host/src/proved.rs"), "fn"), proved_calls(&IN_RUST));
}

#[test]
fn a_small_machine_has_the_calls_too() {
    let (wrapped, firmware) = (declarations(&text("tools/board/entry.c"), "uint32_t"), text("tools/firmware"));
    for call in declarations(&text("include/wall_book.h"), "uint32_t") {
        let (name, _) = call.split_once('(').expect("has parameters");
        assert!(wrapped.contains(&call), "{name} is not wrapped as it is declared");
        // What it calls has sizes of 64 bits in the same places.
        let wide = call.replace("size_t", "uint64_t").replacen(name, &format!("{name}_wide"), 1);
        assert!(wrapped.contains(&wide), "{name}: {wide}");
        assert!(firmware.contains(&format!("s/@wall_book_{name}(/@wall_book_{name}_wide(/")), "{name}");
    }
}

/// The names and numbers of an enum, whose comments are C's.
fn numbered(body: &str) -> Vec<(String, u8)> {
    let pieces = body.split("/*").map(|piece| piece.split_once("*/").map_or(piece, |(_, behind)| behind));
    let plain: String = pieces.collect();
    let entry = |entry: &str| {
        let (name, number) = entry.split_once(" = ").unwrap_or_else(|| panic!("no number: {entry}"));
        (name.to_string(), number.parse().unwrap_or_else(|_| panic!("a number: {entry}")))
    };
    plain.split(',').map(str::trim).filter(|piece| !piece.is_empty()).map(entry).collect()
}

/// A name as macros have it: `PoolLength` becomes `POOL_LENGTH`.
fn in_capitals(name: &str) -> String {
    let letter = |(at, letter): (usize, char)| match letter.is_uppercase() && at > 0 {
        true => format!("_{letter}"),
        false => letter.to_uppercase().to_string(),
    };
    name.chars().enumerate().map(letter).collect()
}

#[test]
fn the_refusals_have_their_names_and_numbers() {
    let header = text("include/wall_book.h");
    let source = text("host/src/refusal.rs");
    let refusals = numbered(between(&source, "pub enum Refusal {", "}")).into_iter();
    // An accepted call, and the answer of a put, are no refusals of the second book.
    let others = [("DONE".to_string(), 0), ("NODE_IDS".to_string(), IDS_USED_UP)];
    let mut expected: Vec<_> = refusals.map(|(name, number)| (in_capitals(&name), number)).chain(others).collect();
    expected.sort_by_key(|&(_, number)| number);
    let expected: Vec<_> = expected.into_iter().map(|(name, number)| (format!("WALL_BOOK_{name}"), number)).collect();
    let declared = numbered(between(&header, "enum wall_book_refusal {", "};"));
    assert_eq!(declared, expected);
    assert!(declared[1..].iter().all(|&(_, number)| words(number) != words(0)), "each has its words");
}

#[test]
fn the_macros_have_their_names_and_values() {
    let header = text("include/wall_book.h");
    let defined: Vec<&str> = header.lines().filter_map(|line| line.strip_prefix("#define ")).collect();
    let expected = [
        "WALL_BOOK_H".to_string(),
        format!("WALL_BOOK_BLOCK_BYTES {BLOCK_BYTES}"),
        format!("WALL_BOOK_MOST_COMMAND_BYTES {MAX_BATCH_BYTES}"),
        format!("WALL_BOOK_PANELS {PANELS}"),
        format!("WALL_BOOK_STACK_BYTES {CORTEX_STACK_BYTES}"),
        format!("WALL_BOOK_TABLE_BYTES(pool_bytes) ((pool_bytes) / {})", BLOCK_BYTES / TABLE_BYTES_PER_BLOCK),
    ];
    assert_eq!(defined, expected);
}
