//! `ledger`: what each panel was charged, by day.

mod append;
mod line;
mod sums;

use super::words::{counted, Options, Words};
use super::{file, Said, Stop, Verb};
use crate::calendar::Day;
use crate::chart::stacked::Stacked;
use crate::markdown::grouped;

pub(super) use append::Ledger;
pub(super) use sums::{Sum, Sums};

pub(super) const VERB: Verb = Verb {
    name: "ledger",
    words: "LEDGER [OUT.svg]",
    about: "what each panel was charged, by day, from the lines that run and desk note",
    more: "A pool keeps no charges. run and desk with --ledger FILE note each accepted call there: a line with the\n\
           time in UTC, the pool's name, the call and a charge for each of sixteen panels, as comma-separated values\n\
           under a heading. OUT.svg is a bar for each day, stacked by panel; one that is there already is kept,\n\
           unless --force is given. A line that cannot be read is told and left out; exit status 1 if there is one.",
    options: &["--force"],
    run,
};

fn run(words: &mut Words<'_>, options: &Options) -> Result<Said, Stop> {
    let (name, target) = (words.word("a ledger")?, words.next());
    words.end()?;
    let sums = Sums::of(&file::read_text(name)?);
    if let Some(target) = target {
        file::write(target, drawn(name, &sums).as_bytes(), &[name], options.force)?;
    }
    let wrong: String = sums.wrong.iter().map(|wrong| format!("{name}: {wrong}\n")).collect();
    // Behind a picture on standard output no words may stand.
    let (text, note) = match target {
        Some("-") => (String::new(), told(name, &sums) + &wrong),
        _ => (told(name, &sums), wrong),
    };
    Ok(Said { text, note, status: u8::from(!sums.wrong.is_empty()) })
}

/// The sums in words: by panel, by day, and by pool where there are several.
fn told(name: &str, sums: &Sums) -> String {
    let Some((first, last)) = sums.span() else { return format!("{name}: no call\n") };
    let days = if first == last { format!("on {first}") } else { format!("from {first} to {last}") };
    let charge = grouped(sums.all.charge());
    let mut text = format!("{name}: {} {days}, charge {charge}\n", counted(sums.all.calls, "call"));
    let mut tables = vec![by_panel(sums), by_day(sums)];
    if sums.pools.len() > 1 {
        tables.push(by_pool(sums));
    }
    tables.iter().for_each(|rows| text.push_str(&format!("\n{}", table(rows))));
    text
}

type Rows = Vec<Vec<String>>;

fn by_panel(sums: &Sums) -> Rows {
    let all = sums.all.charge();
    let row = |panel: usize| {
        let charge = sums.all.charges[panel];
        vec![format!("panel {panel}"), sums.calls[panel].to_string(), grouped(charge), share(charge, all)]
    };
    let head = ["panel", "calls", "charge", "share"].map(str::to_string).to_vec();
    std::iter::once(head).chain(sums.panels().into_iter().map(row)).collect()
}

/// A part of a whole, in tenths of a hundredth.
pub(super) fn share(part: u128, whole: u128) -> String {
    let tenths = (1000.0 * part as f64 / whole.max(1) as f64).round();
    format!("{:.1}%", tenths / 10.0)
}

fn by_day(sums: &Sums) -> Rows {
    let panels = sums.panels();
    let head = ["day".to_string(), "calls".to_string()].into_iter();
    let head = head.chain(panels.iter().map(|panel| format!("panel {panel}"))).chain(["all".to_string()]);
    let row = |(day, sum): (&Day, &Sum)| {
        let charges = panels.iter().map(|&panel| grouped(sum.charges[panel]));
        let front = [day.to_string(), sum.calls.to_string()].into_iter();
        front.chain(charges).chain([grouped(sum.charge())]).collect()
    };
    std::iter::once(head.collect()).chain(sums.days.iter().map(row)).collect()
}

fn by_pool(sums: &Sums) -> Rows {
    let head = ["pool", "calls", "charge"].map(str::to_string).to_vec();
    let row = |(name, sum): (&String, &Sum)| vec![name.clone(), sum.calls.to_string(), grouped(sum.charge())];
    std::iter::once(head).chain(sums.pools.iter().map(row)).collect()
}

/// Rows in columns: the first to the left, the others to the right.
fn table(rows: &Rows) -> String {
    let columns = rows[0].len();
    let width = |column: usize| rows.iter().map(|row| row[column].chars().count()).max().unwrap_or(0);
    let widths: Vec<usize> = (0..columns).map(width).collect();
    let line = |row: &Vec<String>| {
        let cells = (1..columns).map(|at| format!("  {:>1$}", row[at], widths[at]));
        format!("{:<2$}{}\n", row[0], cells.collect::<String>(), widths[0])
    };
    rows.iter().map(line).collect()
}

/// A bar for each day from the first to the last, stacked by panel.
fn drawn(name: &str, sums: &Sums) -> String {
    let panels = sums.panels();
    let (first, last) = sums.span().unwrap_or((Day(0), Day(0)));
    let parts = |sum: &Sum| panels.iter().map(|&panel| sum.charges[panel] as f64).collect();
    Stacked {
        x: "day, in UTC".to_string(),
        y: "charge".to_string(),
        series: panels.iter().map(|&panel| (panel, format!("panel {panel}"))).collect(),
        places: (last.0 - first.0 + 1) as usize,
        name: Box::new(move |place| Day(first.0 + place as i64).to_string()),
        bars: sums.days.iter().map(|(day, sum)| ((day.0 - first.0) as usize, parts(sum))).collect(),
    }
    .drawn(&format!("{name}: charges by panel and day"))
}

#[cfg(test)]
mod tests {
    use super::line::{heading, Line};
    use crate::tool::trial::{said, text, Folder};

    /// Panel 3 puts 7 with 100, panel 0 gets it.
    const BATCH: &str = "0500010302000800000007000000640500010001000400000007";

    fn lines(name: &str) -> Vec<String> {
        std::fs::read_to_string(name).expect("is there").lines().map(str::to_string).collect()
    }

    #[test]
    fn accepted_calls_are_noted_and_no_others() {
        let folder = Folder::new("noted");
        let (pool, ledger) = (folder.prepared("p"), folder.file("l.csv"));
        text(&["run", &pool, BATCH, "--ledger", &ledger]);
        text(&["desk", &pool, "-", "01000400000007", "--ledger", &ledger]);
        let noted = lines(&ledger);
        assert_eq!(noted[0], heading().trim_end());
        let calls: Vec<Line> = noted[1..].iter().map(|line| Line::parse(line).expect("a line")).collect();
        let told: Vec<(&str, &str, u64)> =
            calls.iter().map(|call| (call.pool.as_str(), call.call.as_str(), call.charges.iter().sum())).collect();
        assert_eq!(told, [(pool.as_str(), "batch", 7), (pool.as_str(), "desk", 3)]);
        assert_eq!((calls[0].charges[0], calls[0].charges[3], calls[1].charges[1]), (3, 4, 3));
        assert_eq!(said(&["run", &pool, "05", "--ledger", &ledger]).status, 1);
        text(&["run", &pool, BATCH, "--dry", "--ledger", &ledger]);
        assert_eq!(lines(&ledger), noted, "neither a refused call nor a dry one");
    }

    #[test]
    fn no_other_file_becomes_a_ledger() {
        let folder = Folder::new("no-ledger");
        let pool = folder.prepared("p");
        let before = std::fs::read(&pool).expect("is there");
        let wrong = said(&["run", &pool, BATCH, "--ledger", &pool]);
        assert!(wrong.status == 2 && wrong.note.contains("no ledger"), "{wrong:?}");
        assert_eq!(said(&["run", &pool, BATCH, "--ledger", "/nowhere/at/all"]).status, 2);
        assert!(std::fs::read(&pool).expect("is there") == before, "the call was not made");
        assert_eq!(said(&["run", &pool, "-", "--ledger"]).status, 2);
    }

    #[test]
    fn a_line_that_was_cut_off_takes_no_other_with_it() {
        let folder = Folder::new("cut");
        let (pool, ledger) = (folder.prepared("p"), folder.file("l.csv"));
        text(&["run", &pool, BATCH, "--ledger", &ledger]);
        let whole = std::fs::read(&ledger).expect("is there");
        std::fs::write(&ledger, &whole[..whole.len() - 5]).expect("is written");
        text(&["run", &pool, BATCH, "--ledger", &ledger]);
        let told = said(&["ledger", &ledger]);
        assert_eq!(told.status, 1);
        assert!(told.note.contains("line 2: sixteen charges expected, not 14"), "{told:?}");
        assert!(told.text.contains(": 1 call on "), "{told:?}");
    }

    #[test]
    fn sums_by_panel_by_day_and_by_pool() {
        let folder = Folder::new("sums");
        let (ledger, chart) = (folder.file("l.csv"), folder.file("l.svg"));
        let line = |time: &str, pool: &str, charges: [u64; 3]| {
            let mut all = [0; 16];
            all[..3].copy_from_slice(&charges);
            Line { time: format!("{time}T12:00:00Z"), pool: pool.into(), call: "batch".into(), charges: all }.csv()
        };
        let days = [("2026-02-28", "a", [5, 0, 1000]), ("2026-03-02", "b", [0, 0, 995]), ("2026-03-02", "a", [0; 3])];
        let calls: String = days.iter().map(|(day, pool, charges)| line(day, pool, *charges)).collect();
        std::fs::write(&ledger, heading() + &calls + &heading()).expect("is written");
        let told = text(&["ledger", &ledger, &chart]);
        let tables = "panel    calls  charge  share\npanel 0      1       5   0.3%\npanel 2      2   1,995  99.8%\n\n\
                      day         calls  panel 0  panel 2    all\n2026-02-28      1        5    1,000  1,005\n\
                      2026-03-02      2        0      995    995\n\n\
                      pool  calls  charge\na         2   1,005\nb         1     995\n";
        assert_eq!(told, format!("{ledger}: 3 calls from 2026-02-28 to 2026-03-02, charge 2,000\n\n{tables}"));
        let drawn = std::fs::read_to_string(&chart).expect("is there");
        for part in ["2026-03-01", "panel 2, 2026-02-28: 1,000", "panel 0, 2026-02-28: 5", "charge"] {
            assert!(drawn.contains(part), "{part}: {drawn}");
        }
        assert!(!drawn.contains("panel 1,"), "a panel that was never charged has no part");
    }

    #[test]
    fn an_empty_ledger_says_so() {
        let folder = Folder::new("no-calls");
        let (ledger, chart) = (folder.file("l.csv"), folder.file("l.svg"));
        std::fs::write(&ledger, heading()).expect("is written");
        assert_eq!(text(&["ledger", &ledger, &chart]), format!("{ledger}: no call\n"));
        assert!(std::fs::read_to_string(&chart).expect("is there").ends_with("</svg>\n"));
    }
}
