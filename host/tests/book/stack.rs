//! The stack that the proved book's calls take, and that the header says what is asked here.

use crate::header::text;
use yokehour_host::books::proved_to_compare;
use yokehour_host::stack::CASES;

/// The most bytes of stack that a batch or a desk may take on x86-64, and a prepare.
const STACK_BYTES: usize = 12 * 1024;
const PREPARE_BYTES: usize = 2 * 1024;
/// The same on a Cortex-M; `tools/firmware` asks the first of what it has compiled.
pub const CORTEX_STACK_BYTES: usize = 16 * 1024;
const CORTEX_PREPARE_BYTES: usize = 3 * 1024;

#[test]
fn calls_keep_to_their_stack() {
    let Some(mut proved) = proved_to_compare().unwrap_or_else(|missing| panic!("{missing}")) else { return };
    for case in &CASES {
        let taken = case.deepest(proved.as_mut()).unwrap_or_else(|why| panic!("{why}"));
        println!("{taken:>6} bytes: {}", case.name);
        let most = if case.name.starts_with("prepare") { PREPARE_BYTES } else { STACK_BYTES };
        assert!(taken <= most, "{taken} bytes of stack, above {most}: {}", case.name);
    }
}

/// A number as the header writes it: its thousands set off by a comma.
fn with_comma(number: usize) -> String {
    format!("{},{:03}", number / 1_000, number % 1_000)
}

#[test]
fn the_header_names_the_stack() {
    let [desk, prepare, cortex, cortex_prepare] =
        [STACK_BYTES, PREPARE_BYTES, CORTEX_STACK_BYTES, CORTEX_PREPARE_BYTES].map(with_comma);
    let said = [
        format!(
            "at most {desk} bytes of stack on x86-64 and {cortex} (WALL_BOOK_STACK_BYTES) on a Cortex-M4, M3 or M0+"
        ),
        format!("and prepare {prepare} and {cortex_prepare};"),
    ];
    let header = text("include/wall_book.h").replace("\n * ", " ");
    for sentence in said {
        assert!(header.contains(&sentence), "{sentence}");
    }
}
