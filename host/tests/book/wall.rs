//! Program `wall`, run on a batch: it prints what the second book answers and charges, to the letter.

use std::io::Write;
use std::path::{Path, PathBuf};
use std::process::{Command as Process, Stdio};
use std::sync::Once;

use crate::common::{bytes, ceiling, charges, delete, get, panel, put, scan, Fixture, WORKED};
use yokehour_host::book::{Book, Outcome, SecondBook};
use yokehour_host::books::is_required;
use yokehour_host::command::{answer_room, encode, split_answers, Command};
use yokehour_host::layout::{table_bytes, MAX_BATCH_BYTES, MIN_BLOCKS, PANELS};
use yokehour_host::wire::to_hex;

/// The room that the program has for answers.
const ROOM: usize = 65_536;

/// The program, where it is built; elsewhere a line on standard error says once that it is not tested.
fn program() -> Option<PathBuf> {
    static NOTICE: Once = Once::new();
    let path = Path::new(env!("CARGO_MANIFEST_DIR")).join("../target/bin/wall");
    if path.exists() {
        return Some(path);
    }
    let missing = "there is no target/bin/wall; make it with `tools/library`";
    assert!(!is_required(), "{missing}");
    NOTICE.call_once(|| {
        // Past the test harness, which keeps what `eprintln` writes to itself.
        let _ = writeln!(std::io::stderr(), "program wall is not tested: {missing}");
    });
    None
}

/// What the program prints with a batch on its standard input.
fn printed(program: &Path, batch: &[u8]) -> String {
    let piped = Process::new(program).stdin(Stdio::piped()).stdout(Stdio::piped()).spawn();
    let mut child = piped.unwrap_or_else(|error| panic!("{}: {error}", program.display()));
    let mut stdin = child.stdin.take().expect("is piped");
    // Of a batch that is too long it reads no more than shows that, so what is behind may find nobody.
    let writer = std::thread::spawn({
        let batch = batch.to_vec();
        move || drop(stdin.write_all(&batch))
    });
    let output = child.wait_with_output().expect("ends");
    writer.join().expect("a writer that may fail and does not panic");
    assert!(output.status.success(), "{output:?}");
    String::from_utf8(output.stdout).expect("hexadecimal and words")
}

/// What the second book comes to with a batch on a pool and with room as the program has them, and the answers.
fn second(batch: &[u8]) -> (Outcome, Vec<u8>) {
    let mut pool = Fixture::prepared(MIN_BLOCKS, WORKED).pool;
    let (mut table, mut answers) = (vec![0; table_bytes(pool.len())], vec![0; ROOM]);
    let outcome = SecondBook.batch(&mut pool, &mut table, batch, &mut answers);
    answers.truncate(outcome.length);
    (outcome, answers)
}

/// What the program should print: a line an answer and the sum of the charges, or the refusal alone.
fn expected(batch: &[u8]) -> String {
    let (outcome, answers) = second(batch);
    if outcome.number != 0 {
        return format!("refused {}\n", outcome.number);
    }
    let answers = split_answers(&answers).expect("whole answers").into_iter();
    let lines: String = answers.map(|answer| to_hex(answer) + "\n").collect();
    lines + &format!("charge {}\n", outcome.charge())
}

/// Runs the program on a batch: nothing is asked of it where it is not built.
fn check(batch: &[u8]) {
    if let Some(program) = program() {
        let (printed, expected) = (printed(&program, batch), expected(batch));
        assert!(printed == expected, "{} bytes: {}", batch.len(), first_difference(&printed, &expected));
    }
}

/// The first line that differs, since a batch may have thousands.
fn first_difference(printed: &str, expected: &str) -> String {
    let (mut printed, mut expected) = (printed.lines(), expected.lines());
    let differing = (1..).map(|line| (line, printed.next(), expected.next())).find(|(_, one, other)| one != other);
    format!("{differing:?} as line, printed, expected")
}

#[test]
fn the_sum_of_the_panels_charges_is_printed() {
    let shared = [panel(3), put(7, 100), panel(15), get(7), delete(7), panel(0), get(7)];
    let (outcome, _) = second(&encode(&shared));
    assert_eq!(outcome.charges, charges([(3, 4), (15, 7), (0, 3)]));
    check(&encode(&shared));
    // Nothing is panel 0's, or all of it is the last panel's.
    check(&encode(&[panel(1), put(1, 2), panel(14), ceiling(0), scan(0, 9, 3)]));
    check(&encode(&[panel(15), put(1, 2), get(1)]));
}

#[test]
fn each_of_sixteen_panels_is_in_the_sum() {
    // Panel p puts p + 1 keys, so that no two are charged the same.
    let turn = |at: usize| [vec![panel(at)], (0..=at as u32).map(|key| put(key, at as u32)).collect()].concat();
    let commands: Vec<Command> = (0..PANELS).rev().flat_map(turn).collect();
    let (outcome, _) = second(&encode(&commands));
    assert_eq!(outcome.panels_charged(), PANELS);
    check(&encode(&commands));
}

#[test]
fn an_empty_batch_and_panels_alone_cost_nothing() {
    assert_eq!(expected(&[]), "charge 0\n");
    check(&[]);
    check(&bytes("05000107"));
}

#[test]
fn a_batch_has_32768_bytes_at_most() {
    // 4,680 gets and two panels; a panel more; and as many bytes as one should have to see that they are too many.
    let gets = [vec![panel(1), panel(2)], vec![get(7); 4_680]].concat();
    assert_eq!(encode(&gets).len(), MAX_BATCH_BYTES);
    check(&encode(&gets));
    let over = [encode(&gets), vec![0x05]].concat();
    assert_eq!((over.len(), expected(&over).as_str()), (32_769, "refused 3\n"));
    check(&over);
    // Valid commands all of them, but that they are too many; and more than a pipe holds.
    check(&[encode(&gets), bytes("05000100")].concat());
    check(&encode(&vec![get(7); 20_000]));
}

/// Scans for 32 pairs, ceilings, and puts of new keys in front of them, which fill what these list.
fn with_room(scans: usize, ceilings: usize, puts: u32) -> Vec<Command> {
    let puts = (0..puts).map(|key| put(key, !key)).collect();
    [vec![panel(9)], puts, vec![scan(0, u32::MAX, 32); scans], vec![ceiling(3); ceilings]].concat()
}

#[test]
fn answers_have_65536_bytes_at_most() {
    let fits = with_room(252, 4, 32);
    assert_eq!(answer_room(&fits), ROOM);
    // Each put answers with 3 bytes where 7 are asked for, the others with all.
    assert_eq!(second(&encode(&fits)).0.length, ROOM - 32 * 4);
    check(&encode(&fits));
    let over = with_room(252, 6, 29);
    assert_eq!((answer_room(&over), expected(&encode(&over)).as_str()), (ROOM + 1, "refused 4\n"));
    check(&encode(&over));
    let under = with_room(252, 2, 35);
    assert_eq!(answer_room(&under), ROOM - 1);
    check(&encode(&under));
}

#[test]
fn a_refusal_prints_its_number_alone() {
    for refused in ["05000110", "0500020000", "06", "01000400000007 05", "800000", "04000a00000000ffffffff0021"] {
        assert_eq!(expected(&bytes(refused)), "refused 3\n", "{refused}");
        check(&bytes(refused));
    }
}

#[test]
fn a_pool_of_four_blocks_is_full_for_wall_too() {
    // 240 ascending keys are taken; the others answer 8f with 9 and cost nothing.
    let puts: Vec<Command> = (0..260).flat_map(|key| [panel(key as usize % PANELS), put(key, key)]).collect();
    assert_eq!(expected(&encode(&puts)).matches("8f000109\n").count(), 20);
    check(&encode(&puts));
}
