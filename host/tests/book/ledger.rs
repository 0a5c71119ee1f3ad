//! A ledger that two processes write at once, and its picture on standard output.

use std::thread;

use crate::programs::{noted, Folder};

#[test]
fn lines_of_two_processes_do_not_mix() {
    let folder = Folder::new("ledger");
    const CALLS: usize = 20;
    thread::scope(|scope| {
        for pool in ["p", "q"] {
            let folder = &folder;
            scope.spawn(move || {
                assert_eq!(folder.status(&format!("prepare {pool} 4 --book second")), Some(0));
                for _ in 0..CALLS {
                    let put = format!("run {pool} 0200080000000700000064 --ledger l.csv --book second");
                    assert_eq!(folder.status(&put), Some(0));
                }
            });
        }
    });
    let (status, text) = folder.says("ledger l.csv");
    assert_eq!(status, Some(0), "{text}");
    assert!(text.starts_with(&format!("l.csv: {} calls ", 2 * CALLS)), "{text}");
    let (drawn, spoken) = (folder.says("ledger l.csv -").1, noted(folder.wallbook("ledger l.csv -")).1);
    assert!(drawn.starts_with("<svg ") && drawn.ends_with("</svg>\n") && spoken == text, "a picture alone: {spoken}");
    assert!(text.contains(&format!("\np {:>9}", CALLS)) && text.contains(&format!("\nq {:>9}", CALLS)), "{text}");
}
