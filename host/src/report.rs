//! The papers' workloads on the book, as tables.
//!
//! Charges are compared with always-log, always-disk (one switch a node), the offline optimum and the source's
//! own listing, all over the same node requests. Pages and erases are those of the run itself.

use std::time::Instant;

use crate::book::{self, Book};
use crate::books::by_name;
use crate::chart::Chart;
use crate::command::{answer_room, encode, Command};
use crate::flash::Store;
use crate::layout::{node_limit, table_bytes, LOG_PAGE_ENTRIES, PAGE_BYTES};
use crate::markdown;
use crate::meter::Totals;
use crate::metered::{Metered, BATCH};
use crate::mount::mount;
use crate::observe::Unobserved;
use crate::random::Random;
use crate::wire::page_sum;
use crate::workload::{build_then_reads, build_with_reads, Device, Stream};
use crate::workload::{CAPSULE, DEVICES, DISK_ONLY, FLASHCHIP, LOG_ONLY, SLC, STREAMS};

/// Items of a stream: 620 nodes hold some 6,900 ascending keys.
const ITEMS: usize = 6_000;
/// Blocks of the pool that the workloads run on, unless they say otherwise.
const BLOCKS: usize = 64;

/// A workload: its name, what the papers report, and the table that it prints.
pub struct Section {
    pub name: &'static str,
    pub title: &'static str,
    pub papers: &'static str,
    table: fn() -> Result<Rows, String>,
    /// The table as a chart, where that shows more than the numbers.
    chart: Option<fn(&Rows) -> Chart>,
}

/// The rows of a table; the first is its head.
pub type Rows = Vec<Vec<String>>;

/// All workloads; the last is a measurement of time, which no two runs share, and is printed when named.
pub const SECTIONS: &[Section] = &[
    Section {
        name: "W1",
        title: "Build of LABDATA (synthetic stand-in), 6,000 items, by device",
        papers: "Source 000, figure 10: Log 40% cheaper than Disk on FLASHCHIP, 80% on SD; Disk 38% cheaper than Log \
                 on CAPSULE, 32% on CF; self-tuning at least as good as the better, 10% below Log on FLASHCHIP.",
        table: builds_by_device,
        chart: Some(|rows| charges_chart(rows, 1, 2)),
    },
    Section {
        name: "W2",
        title: "Three streams on FLASHCHIP: build alone, and each item queried 10 times afterwards",
        papers: "Source 000, figures 11 and 12: Log wins builds, Disk wins reads, self-tuning below both.",
        table: streams_on_flashchip,
        chart: Some(|rows| charges_chart(rows, 2, 2)),
    },
    Section {
        name: "W3",
        title: "Reads per write against the cost of a write in reads, build of LABDATA (synthetic), 3,000 items",
        papers: "Source 000, figure 15: self-tuning always best; Log = Disk near write/read 4.7 at no reads (only \
                 ratios can be reproduced). Each cell: what the others pay, as multiples of the book's charge.",
        table: ratio_grid,
        chart: Some(ratio_chart),
    },
    Section {
        name: "W4",
        title: "The book against the offline optimum, by device: build of LABDATA (synthetic) with one query an item",
        papers: "Source 000, figure 14 and section 6.4: within 1.25 to 1.3 of the optimum on ten nodes of one build.",
        table: against_optimum,
        chart: Some(optimum_chart),
    },
    Section {
        name: "W5",
        title: "A plain list of log pages against the index: queries at which they cost the same",
        papers: "Source 000, figure 9: about 300 queries, 1% of 30,000 items.",
        table: list_against_index,
        chart: Some(queries_chart),
    },
    Section {
        name: "W6",
        title: "Tree of 5,000 uniform keys, then 3,000 commands with some lookups per insert, CAPSULE: after the build",
        papers:
            "Source 004, figures 6 and 9: a FlashDB-like scheme loses to a tuned B+ tree on this chip. All columns \
                 begin with the pool as the book has built it: with the modes that its nodes have then, and the \
                 listing with their scores too.",
        table: lookups_per_insert,
        chart: Some(|rows| charges_chart(rows, 1, 1)),
    },
    Section {
        name: "W7",
        title: "Random keys below 3N, build, then all looked up, SLC small block",
        papers: "Source 002, figures 9 to 14: FlashDB writes 44% of a B-tree's pages and reads more.",
        table: small_block_pages,
        chart: Some(pages_chart),
    },
    Section {
        name: "W8",
        title: "Phases of P edits, then P reads, on one leaf, 40 phases, SLC small block",
        papers: "Source 002's criticism of 000: a counter without a floor gets stuck; short phases switch too often.",
        table: phases,
        chart: Some(|rows| charges_chart(rows, 1, 3)),
    },
    Section {
        name: "W9",
        title: "Wear: 60,000 overwrites of 1,000 keys in 12 blocks, FLASHCHIP",
        papers: "The papers want erases even; document 01 does not promise it.",
        table: wear,
        chart: Some(wear_chart),
    },
    Section {
        name: TIMES,
        title: "Times on this machine, a pool of 1,048,576 bytes after 6,000 puts and 16,000 overwrites",
        papers: "None: a figure to compare another book with in the same run.",
        table: times,
        chart: None,
    },
];

/// The section that is printed when named alone.
pub const TIMES: &str = "TIMES";

impl Section {
    /// Runs the workload.
    pub fn rows(&self) -> Result<Rows, String> {
        (self.table)()
    }

    /// Its rows as a table in Markdown.
    pub fn text(&self, rows: &Rows) -> String {
        format!("## {}. {}\n\n{}\n\n{}", self.name, self.title, self.papers, markdown::table(rows))
    }

    /// Its rows as a picture in SVG, if it has one.
    pub fn picture(&self, rows: &Rows) -> Option<String> {
        self.chart.map(|chart| chart(rows).bars(&format!("{}. {}", self.name, self.title)))
    }
}

/// The charges of a table's rows as multiples of the optimum's; `first` is the column of the book's charge.
fn charges_chart(rows: &Rows, names: usize, first: usize) -> Chart {
    let optimum = first + 3;
    let series = [first, first + 1, first + 2, first + 4];
    let of = |column: usize| rows[1..].iter().map(|row| leading(&row[column]) / leading(&row[optimum])).collect();
    Chart {
        x: rows[0][..names].join(", "),
        y: "charge / optimum's charge".to_string(),
        groups: rows[1..].iter().map(|row| row[..names].to_vec()).collect(),
        series: series.iter().map(|&column| (rows[0][column].clone(), of(column))).collect(),
        cap: 4.0,
    }
}

/// Columns of a table as they are, by the first.
fn columns_chart(rows: &Rows, y: &str, columns: &[usize]) -> Chart {
    let of = |column: usize| rows[1..].iter().map(|row| leading(&row[column])).collect();
    Chart {
        x: rows[0][0].clone(),
        y: y.to_string(),
        groups: rows[1..].iter().map(|row| vec![row[0].clone()]).collect(),
        series: columns.iter().map(|&column| (rows[0][column].clone(), of(column))).collect(),
        cap: f64::INFINITY,
    }
}

fn optimum_chart(rows: &Rows) -> Chart {
    columns_chart(rows, "charge / optimum's charge", &[1, 2])
}

fn queries_chart(rows: &Rows) -> Chart {
    columns_chart(rows, "queries", &[5])
}

fn pages_chart(rows: &Rows) -> Chart {
    columns_chart(rows, "pages", &[3])
}

/// What always log and always disk pay, without reads and with ten a write.
fn ratio_chart(rows: &Rows) -> Chart {
    let part = |cell: &str, name: &str| {
        let part = cell.split(", ").find_map(|part| part.strip_prefix(name));
        part.map_or(f64::NAN, |number| leading(number.trim()))
    };
    let of = |row: &Vec<String>, name: &str| row[1..].iter().map(|cell| part(cell, name)).collect();
    let ends = [&rows[1], &rows[rows.len() - 1]];
    let both = |row: &Vec<String>| {
        ["log", "disk"].map(|name| (format!("always {name}, {} reads a write", row[0]), of(row, name)))
    };
    Chart {
        x: "cost of a write / cost of a read".to_string(),
        y: "charge / the book's charge".to_string(),
        groups: rows[0][1..].iter().map(|head| vec![head.replace("write/read ", "")]).collect(),
        series: ends.into_iter().flat_map(both).collect(),
        cap: 4.0,
    }
}

fn wear_chart(rows: &Rows) -> Chart {
    let erases = |row: &Vec<String>| -> Vec<f64> { row[4].split(' ').map(leading).collect() };
    let blocks = erases(&rows[1]).len();
    Chart {
        x: "block".to_string(),
        y: "erases".to_string(),
        groups: (0..blocks).map(|block| vec![block.to_string()]).collect(),
        series: rows[1..].iter().map(|row| (row[0].clone(), erases(row))).collect(),
        cap: f64::INFINITY,
    }
}

/// The number that a cell begins with.
fn leading(cell: &str) -> f64 {
    let end = cell.find(|c: char| !c.is_ascii_digit() && c != '.').unwrap_or(cell.len());
    cell[..end].parse().unwrap_or(f64::NAN)
}

fn header(first: &[&str], rest: &[&str]) -> Vec<String> {
    first.iter().chain(rest).map(|word| word.to_string()).collect()
}

const CHARGES: [&str; 7] = [
    "book",
    "always log",
    "always disk",
    "optimum",
    "source's listing",
    "book / optimum",
    "book / better of log, disk",
];
const PHYSICAL: [&str; 3] = ["pages written", "copied", "erases (least to most a block)"];

fn ratio(one: u64, other: u64) -> String {
    format!("{:.3}", one as f64 / other.max(1) as f64)
}

fn charges(totals: &Totals) -> Vec<String> {
    let &Totals { charge, log, disk, optimum, listing, .. } = totals;
    let mut cells = [charge, log, disk, optimum, listing].map(|charge| charge.to_string()).to_vec();
    cells.extend([ratio(charge, optimum), ratio(charge, log.min(disk))]);
    cells
}

fn physical(totals: &Totals) -> Vec<String> {
    let (all, least, most) = totals.erase_spread();
    vec![totals.pages_written.to_string(), totals.pages_copied.to_string(), format!("{all} ({least} to {most})")]
}

/// A row of a table: names, charges, physical counts.
fn row(names: &[&str], totals: &Totals) -> Vec<String> {
    let names = names.iter().map(|name| name.to_string());
    names.chain(charges(totals)).chain(physical(totals)).collect()
}

fn builds_by_device() -> Result<Rows, String> {
    let commands = build_with_reads(&Stream::SyntheticLab.keys(ITEMS), 0);
    let mut rows = vec![header(&["device", "unit (of 1/27 page)"], &[CHARGES.as_slice(), &PHYSICAL].concat())];
    for device in DEVICES {
        rows.push(row(&[device.name, device.unit], &Metered::measured(BLOCKS, device.tariff(), &commands)?));
    }
    Ok(rows)
}

fn streams_on_flashchip() -> Result<Rows, String> {
    let mut rows = vec![header(&["stream", "queries an item"], &[CHARGES.as_slice(), &PHYSICAL].concat())];
    for stream in STREAMS {
        for reads in [0, 10] {
            let commands = build_then_reads(&stream.keys(ITEMS), reads);
            let totals = Metered::measured(BLOCKS, FLASHCHIP.tariff(), &commands)?;
            rows.push(row(&[stream.name(), &reads.to_string()], &totals));
        }
    }
    Ok(rows)
}

/// Costs of a write in tenths of a read.
const WRITE_COSTS: [u32; 7] = [10, 20, 47, 100, 200, 500, 2000];

fn ratio_grid() -> Result<Rows, String> {
    let keys = Stream::SyntheticLab.keys(ITEMS / 2);
    let heads = WRITE_COSTS.map(|write| format!("write/read {}", f64::from(write) / 10.0));
    let mut rows = vec![header(&["reads per write"], &heads.each_ref().map(String::as_str))];
    for reads in [0, 1, 2, 5, 10] {
        let commands = build_with_reads(&keys, reads);
        let mut cells = vec![reads.to_string()];
        for write in WRITE_COSTS {
            let device = Device { name: "", unit: "", read: 10, write };
            let Totals { charge, log, disk, optimum, .. } = Metered::measured(BLOCKS, device.tariff(), &commands)?;
            let [log, disk, optimum] = [log, disk, optimum].map(|other| ratio(other, charge));
            cells.push(format!("log {log}, disk {disk}, optimum {optimum}"));
        }
        rows.push(cells);
    }
    Ok(rows)
}

fn against_optimum() -> Result<Rows, String> {
    let commands = build_with_reads(&Stream::SyntheticLab.keys(ITEMS), 1);
    let mut rows =
        vec![header(&["device", "book / optimum", "listing / optimum", "switches", "listing's switches"], &[])];
    for device in DEVICES {
        let totals = Metered::measured(BLOCKS, device.tariff(), &commands)?;
        rows.push(vec![
            device.name.to_string(),
            ratio(totals.charge, totals.optimum),
            ratio(totals.listing, totals.optimum),
            totals.switches.to_string(),
            totals.listing_switches.to_string(),
        ]);
    }
    Ok(rows)
}

/// The list is log pages of 27 items, written once, and read whole for each query.
fn list_against_index() -> Result<Rows, String> {
    let keys = Stream::SyntheticLab.keys(ITEMS);
    let queries = 2000;
    let mut rows = vec![header(
        &["device", "index: build", "index: a query", "list: build", "list: a query", "same cost at", "of the items"],
        &[],
    )];
    for device in DEVICES {
        let mut metered = Metered::new(BLOCKS, device.tariff())?;
        metered.run(&build_with_reads(&keys, 0))?;
        let build = metered.meter.totals().charge;
        let mut random = Random::new(9);
        metered.run(&(0..queries).map(|_| Command::Get { key: random.pick(&keys) }).collect::<Vec<_>>())?;
        let query = (metered.meter.totals().charge - build) as f64 / queries as f64;
        let list_build = ITEMS as f64 * f64::from(device.write);
        let list_query = (ITEMS.div_ceil(LOG_PAGE_ENTRIES) * LOG_PAGE_ENTRIES) as f64 * f64::from(device.read);
        let same = (build as f64 - list_build) / (list_query - query);
        rows.push(vec![
            device.name.to_string(),
            build.to_string(),
            format!("{query:.0}"),
            format!("{list_build:.0}"),
            format!("{list_query:.0}"),
            format!("{same:.0} queries"),
            format!("{:.1}%", 100.0 * same / ITEMS as f64),
        ]);
    }
    Ok(rows)
}

fn lookups_per_insert() -> Result<Rows, String> {
    let keys = Stream::Random.keys(5_000);
    let mut rows = vec![header(&["lookups per insert"], &[CHARGES.as_slice(), &PHYSICAL].concat())];
    for share in [0.01, 0.1, 0.5, 1.0, 2.0] {
        let mut metered = Metered::new(BLOCKS, CAPSULE.tariff())?;
        metered.run(&build_with_reads(&keys, 0))?;
        metered.measure_anew()?;
        let mut random = Random::new(4);
        let mut one = || {
            let lookup = (random.next_u32() as f64 / 2f64.powi(32)) * (1.0 + share) < share;
            if lookup {
                Command::Get { key: random.pick(&keys) }
            } else {
                Command::Put { key: random.next_u32(), value: 1 }
            }
        };
        metered.run(&(0..3_000).map(|_| one()).collect::<Vec<_>>())?;
        rows.push(row(&[&share.to_string()], &metered.meter.totals()));
    }
    Ok(rows)
}

fn small_block_pages() -> Result<Rows, String> {
    let mut random = Random::new(3);
    let mut keys: Vec<u32> = (0..3 * ITEMS as u32).collect();
    random.shuffle(&mut keys);
    keys.truncate(ITEMS);
    let commands = build_then_reads(&keys, 1);
    let mut rows = vec![header(&["book", "switches", "pages of the first"], &PHYSICAL)];
    let mut disk_pages = 0;
    for (name, tariff) in
        [("every node on disk pages", DISK_ONLY), ("every node in the log", LOG_ONLY), ("self-tuning", SLC.tariff())]
    {
        let totals = Metered::measured(BLOCKS, tariff, &commands)?;
        if tariff == DISK_ONLY {
            disk_pages = totals.pages_written;
        }
        let mut cells = vec![name.to_string(), totals.switches.to_string()];
        cells.push(format!("{}%", 100 * totals.pages_written / disk_pages.max(1)));
        cells.extend(physical(&totals));
        rows.push(cells);
    }
    Ok(rows)
}

fn phases() -> Result<Rows, String> {
    let mut rows = vec![header(&["P", "switches", "listing's switches"], &CHARGES)];
    for length in [10, 1000] {
        let mut commands = Vec::new();
        for phase in 0..40 {
            commands.extend((0..length).map(|at| match phase % 2 {
                // A put reads the leaf too, so an edit comes with a read.
                0 => Command::Put { key: at % 20, value: at },
                _ => Command::Get { key: at % 20 },
            }));
        }
        let totals = Metered::measured(4, SLC.tariff(), &commands)?;
        let mut cells = vec![length.to_string(), totals.switches.to_string(), totals.listing_switches.to_string()];
        cells.extend(charges(&totals));
        rows.push(cells);
    }
    Ok(rows)
}

fn wear() -> Result<Rows, String> {
    let mut rows =
        vec![header(&["keys overwritten", "pages written", "copied", "erases", "erases of each block"], &[])];
    for (name, hot) in [("uniform", false), ("9 of 10 on 20 keys", true)] {
        let mut random = Random::new(6);
        let mut metered = Metered::new(12, FLASHCHIP.tariff())?;
        metered.run(&(0..1000).map(|key| Command::Put { key: key * 7 % 1000, value: 0 }).collect::<Vec<_>>())?;
        let mut key = || if hot && !random.once_in(10) { random.below(20) } else { random.below(1000) };
        metered.run(&(0..60_000).map(|value| Command::Put { key: key() as u32, value }).collect::<Vec<_>>())?;
        let totals = metered.meter.totals();
        let each: Vec<String> = totals.erases.iter().map(u64::to_string).collect();
        rows.push(vec![
            name.to_string(),
            totals.pages_written.to_string(),
            totals.pages_copied.to_string(),
            totals.erase_spread().0.to_string(),
            each.join(" "),
        ]);
    }
    Ok(rows)
}

/// The shortest time of one of several runs, in microseconds.
fn shortest(mut run: impl FnMut()) -> f64 {
    let time = |_| {
        let start = Instant::now();
        run();
        start.elapsed().as_secs_f64() * 1e6
    };
    (0..60).map(time).fold(f64::INFINITY, f64::min)
}

/// The time of one command on a mounted pool, mount and closing left out.
fn command_time(pool: &[u8], commands: &[Command]) -> Result<f64, String> {
    let mut pool = pool.to_vec();
    let mounted = mount(&pool).map_err(|fault| fault.to_string())?;
    let mut observer = Unobserved;
    let mut store = Store::open(&mut pool, mounted, &mut observer);
    let mut answers = Vec::new();
    let all = shortest(|| {
        answers.clear();
        book::serve(&mut store, node_limit(BLOCKS), commands, &mut answers);
    });
    Ok(all / commands.len() as f64)
}

/// The shortest time of a whole batch on a pool, in microseconds: the questions, the commands and the closing.
fn batch_time(book: &mut dyn Book, pool: &[u8], commands: &[Command]) -> f64 {
    let batch = encode(commands);
    let mut table = vec![0; table_bytes(pool.len())];
    let mut answers = vec![0; answer_room(commands)];
    let mut lent = pool.to_vec();
    let time = |_| {
        lent.copy_from_slice(pool);
        let start = Instant::now();
        std::hint::black_box(book.batch(&mut lent, &mut table, &batch, &mut answers));
        start.elapsed().as_secs_f64() * 1e6
    };
    (0..60).map(time).fold(f64::INFINITY, f64::min)
}

fn times() -> Result<Rows, String> {
    let keys = Stream::SyntheticLab.keys(ITEMS);
    let mut metered = Metered::new(BLOCKS, FLASHCHIP.tariff())?;
    let mut random = Random::new(8);
    metered.run(&build_with_reads(&keys, 0))?;
    metered
        .run(&(0..8 * BATCH as u32).map(|value| Command::Put { key: random.pick(&keys), value }).collect::<Vec<_>>())?;
    let written: usize = mount(&metered.pool).map_err(|fault| fault.to_string())?.written.iter().sum();
    let mount_time = shortest(|| {
        std::hint::black_box(mount(std::hint::black_box(&metered.pool)).is_ok());
    });
    let sum_time = shortest(|| {
        let pages = metered.pool.chunks_exact(PAGE_BYTES);
        std::hint::black_box(pages.map(page_sum).fold(0, |all, sum| all ^ sum[3]));
    });
    let gets: Vec<Command> = (0..BATCH).map(|_| Command::Get { key: random.pick(&keys) }).collect();
    let puts: Vec<Command> = (0..BATCH as u32).map(|value| Command::Put { key: random.pick(&keys), value }).collect();
    let (get, put) = (command_time(&metered.pool, &gets)?, command_time(&metered.pool, &puts)?);
    let mut rows = vec![
        header(&["what", "microseconds"], &[]),
        vec![format!("mount, {written} of 2,048 pages written"), format!("{mount_time:.0}")],
        vec!["one pass of the page sums, 2,048 pages".to_string(), format!("{sum_time:.0}")],
        vec!["a get on the mounted pool".to_string(), format!("{get:.3}")],
        vec!["a put of a key that is there, on the mounted pool".to_string(), format!("{put:.3}")],
    ];
    for name in ["second", "proved"] {
        rows.extend(batch_rows(name, &metered.pool, &gets, &puts));
    }
    Ok(rows)
}

/// The times of whole batches on a book, or why there are none.
fn batch_rows(name: &str, pool: &[u8], gets: &[Command], puts: &[Command]) -> Vec<Vec<String>> {
    let mut book = match by_name(name) {
        Ok(book) => book,
        Err(missing) => return vec![vec![format!("{name} book: {missing}"), "-".to_string()]],
    };
    let mut row = |(what, commands)| {
        let time = batch_time(book.as_mut(), pool, commands);
        vec![format!("{name} book: a batch of {what}"), format!("{time:.0}")]
    };
    [("nothing", &[][..]), ("2,000 gets", gets), ("2,000 puts", puts)].map(&mut row).to_vec()
}

#[cfg(test)]
mod tests {
    use super::*;

    #[test]
    fn a_table_of_charges_is_drawn_over_its_optimum() {
        let section = SECTIONS.iter().find(|section| section.name == "W8").expect("is one");
        let rows = section.rows().expect("runs");
        let chart = section.chart.expect("has one")(&rows);
        assert_eq!(chart.groups, [["10"], ["1000"]]);
        let names: Vec<&str> = chart.series.iter().map(|(name, _)| name.as_str()).collect();
        assert_eq!(names, ["book", "always log", "always disk", "source's listing"]);
        assert!(chart.series.iter().all(|(_, values)| values.iter().all(|value| (1.0..100.0).contains(value))));
        let picture = section.picture(&rows).expect("has one");
        assert!(picture.contains("charge / optimum's charge"));
    }

    #[test]
    fn no_charge_is_below_the_optimum() {
        let mut tables = 0;
        for section in SECTIONS.iter().filter(|section| ["W1", "W2", "W6", "W8"].contains(&section.name)) {
            let rows = section.rows().expect("runs");
            let book = rows[0].iter().position(|head| head == CHARGES[0]).expect("has charges");
            for row in &rows[1..] {
                let charges: Vec<u64> = row[book..][..5].iter().map(|cell| cell.parse().expect("is whole")).collect();
                assert!(charges.iter().all(|&charge| charge >= charges[3]), "{}: {row:?}", section.name);
            }
            tables += 1;
        }
        assert_eq!(tables, 4);
    }

    #[test]
    fn a_cell_begins_with_its_number() {
        assert_eq!(["202 queries", "3.4%", "7", "128 (1 to 4)"].map(leading), [202.0, 3.4, 7.0, 128.0]);
        assert!(leading("none").is_nan());
    }
}
