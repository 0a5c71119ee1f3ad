//! The calls for a machine of 32 bits, `tools/board/entry.c`, hand every buffer on as it was lent.
//!
//! The board's trial is run here by the proved book itself and by way of these calls: its lines tell all that each of
//! its prepares, batches and desks left, and must be those of the second book. That sizes are widened and narrowed
//! shows on a board alone (`tools/firmware-trial`), since here both have 64 bits.

use std::io::Write;

use crate::folder::{has_compiler, Folder, LIBRARY};
use crate::trial;
use yokehour_host::books::{is_required, proved_to_compare};

/// The source of the trial, and of the calls that are tried.
const TRIAL: &str = "tools/board/trial.c";
const ENTRY: &str = "tools/board/entry.c";

/// Says whether there are a book to call and a compiler; a line on standard error says what is left out.
fn can_be_compiled() -> bool {
    if proved_to_compare().unwrap_or_else(|missing| panic!("{missing}")).is_none() {
        return false;
    }
    let here = has_compiler("cc");
    if !here {
        assert!(!is_required(), "there is no cc");
        // Past the test harness, which keeps what `eprintln` writes to itself.
        let _ = writeln!(std::io::stderr(), "{ENTRY} is not tested: there is no cc");
    }
    here
}

/// What the trial prints with these words more for the compiler.
fn printed(folder: &Folder, program: &str, words: &[String]) -> String {
    let words: Vec<&str> = words.iter().map(String::as_str).chain(["-std=c99", "-O2", TRIAL, LIBRARY]).collect();
    folder.compile("cc", &words, program);
    folder.run(program, &[])
}

/// The words that put the calls of `entry.c` between the trial and the book.
///
/// Both files call theirs `narrow_..`; what `entry.c` then calls `.._wide` is the book's own.
fn by_way_of_entry() -> Vec<String> {
    let renamed = ["prepare", "batch", "desk"].into_iter().flat_map(|call| {
        [
            format!("-Dwall_book_{call}=narrow_{call}"),
            format!("-Wl,--undefined=wall_book_{call},--defsym=wall_book_{call}_wide=wall_book_{call}"),
        ]
    });
    renamed.chain([ENTRY.to_string()]).collect()
}

/// The number that a call came to: the first of its line.
fn number(line: &str) -> u64 {
    let number = line.split_whitespace().next().expect("a line tells of a call");
    u64::from_str_radix(number, 16).expect("is hexadecimal")
}

#[test]
fn every_call_goes_through_as_it_is() {
    if !can_be_compiled() {
        return;
    }
    let expected = trial::lines();
    let folder = Folder::new("entry");
    for (program, words) in [("direct", Vec::new()), ("through", by_way_of_entry())] {
        let printed = printed(&folder, program, &words);
        let differing = printed.lines().zip(expected.lines()).position(|(one, other)| one != other);
        assert_eq!(differing, None, "the first call that leaves something else, {program}");
        assert_eq!(printed, expected, "{program}");
    }
}

#[test]
fn the_trial_meets_refusals() {
    // Three pools: a prepare, and sixty batches and desks by turns. What is wrong with some of them is refused.
    let numbers: Vec<u64> = trial::lines().lines().map(number).collect();
    let counted = [0, 3, 4, 5, 11].map(|number| numbers.iter().filter(|&&other| other == number).count());
    assert_eq!((numbers.len(), counted), (363, [269, 22, 28, 17, 27]));
}
