//! `picture`: a pool as SVG, a cell a page and a row a block.

use std::path::Path;

use super::words::{Options, Words};
use super::{dump, file, Said, Stop, Verb};
use crate::layout::BLOCK_PAGES;
use crate::marks::{counts, marks, Kind, Mark};
use crate::mount::examine;
use crate::svg::{Anchor, Area, Svg, GREY, INK};

pub(super) const VERB: Verb = Verb {
    name: "picture",
    words: "FILE OUT.svg",
    about: "the pool as a picture: a cell a page, a row a block",
    more: "The colour tells what a page is, the shade of a live page its sequence number: the newest is the darkest.\n\
           Live pages have an outline, dead ones are pale. A pool that is refused is drawn too. A picture that is\n\
           there already is kept, unless --force is given.",
    options: &["--force", "--spare", "--offset", "--swap"],
    run,
};

fn run(words: &mut Words<'_>, options: &Options) -> Result<Said, Stop> {
    let (name, target) = (words.word("a file")?, words.word("a file for the picture")?);
    words.end()?;
    let bytes = dump::read(name, options)?;
    let short = Path::new(name).file_name().unwrap_or_default().to_string_lossy();
    let title = match examine(&bytes).faults.first() {
        None => format!("{short} opens"),
        Some(fault) => format!("{short} is refused with {fault}"),
    };
    file::write(target, drawn(&title, &marks(&bytes)).as_bytes(), &[name], options.force)?;
    Ok(Said::default())
}

/// Sides of a cell and of the space around the cells.
const CELL: f64 = 18.0;
const LEFT: f64 = 70.0;
const TOP: f64 = 66.0;
const RIGHT: f64 = 130.0;
const LEGEND: f64 = 84.0;
/// How light a dead page is: lighter than any live one.
const PALE: u32 = 92;

fn drawn(title: &str, marks: &[Mark]) -> String {
    let rows = marks.len().div_ceil(BLOCK_PAGES);
    let (right, bottom) = (LEFT + CELL * BLOCK_PAGES as f64, TOP + CELL * rows as f64);
    let mut svg = Svg::new(right + RIGHT, bottom + LEGEND);
    svg.text((LEFT, 24.0), Anchor::Start, title);
    for place in (0..BLOCK_PAGES).step_by(8) {
        svg.text((LEFT + CELL * place as f64 + CELL / 2.0, TOP - 8.0), Anchor::Middle, &place.to_string());
    }
    svg.text((LEFT - 12.0, TOP - 8.0), Anchor::End, "page");
    let ranks = Ranks::of(marks);
    for (block, row) in marks.chunks(BLOCK_PAGES).enumerate() {
        let y = TOP + CELL * block as f64;
        svg.text((LEFT - 12.0, y + 13.0), Anchor::End, &format!("block {block}"));
        let (live, written) = counts(row);
        svg.text((right + 12.0, y + 13.0), Anchor::Start, &format!("{live} live of {written}"));
        for (place, mark) in row.iter().enumerate() {
            let page = block * BLOCK_PAGES + place;
            cell(&mut svg, (LEFT + CELL * place as f64, y), mark, ranks.of_mark(mark), &mark.words(page));
        }
    }
    legend(&mut svg, bottom + 20.0);
    svg.finish()
}

/// One page: outlined if it is live.
fn cell(svg: &mut Svg, (x, y): (f64, f64), mark: &Mark, rank: f64, title: &str) {
    let inner = Area { x: x + 1.5, y: y + 1.5, width: CELL - 3.0, height: CELL - 3.0 };
    let outline = if mark.live == Some(true) { INK } else { GREY };
    svg.area(inner, &colour(mark, rank), outline, title);
}

/// A colour for the kind; pale for a dead page, and for another its age, 0 the oldest and 1 the newest.
fn colour(mark: &Mark, rank: f64) -> String {
    let hue = match mark.kind {
        Kind::Blank => return "#ffffff".to_string(),
        Kind::Broken => return "#d00000".to_string(),
        Kind::Log => 210,
        Kind::Node => 130,
        Kind::Checkpoint => 35,
    };
    match mark.live {
        Some(false) => format!("hsl({hue},50%,{PALE}%)"),
        _ => format!("hsl({hue},70%,{:.0}%)", 76.0 - 41.0 * rank),
    }
}

/// The written pages by age.
struct Ranks(Vec<u32>);

impl Ranks {
    fn of(marks: &[Mark]) -> Ranks {
        let mut sequences: Vec<u32> = marks.iter().map(|mark| mark.sequence).filter(|&sequence| sequence > 0).collect();
        sequences.sort_unstable();
        Ranks(sequences)
    }

    /// From 0 for the oldest to 1 for the newest.
    fn of_mark(&self, mark: &Mark) -> f64 {
        let older = self.0.partition_point(|&sequence| sequence < mark.sequence);
        older as f64 / (self.0.len().max(2) - 1) as f64
    }
}

fn legend(svg: &mut Svg, y: f64) {
    let sample = |kind, live| Mark { kind, live: Some(live), sequence: 0 };
    let mut x = LEFT;
    for kind in Kind::ALL {
        let live = !matches!(kind, Kind::Blank | Kind::Broken);
        cell(svg, (x, y), &sample(kind, live), 0.7, kind.name());
        svg.text((x + CELL + 4.0, y + 13.0), Anchor::Start, kind.name());
        x += CELL + 18.0 + 7.0 * kind.name().len() as f64;
    }
    let y = y + CELL + 10.0;
    for (x, live, word) in [(LEFT, true, "live"), (LEFT + 70.0, false, "dead")] {
        cell(svg, (x, y), &sample(Kind::Log, live), 0.7, word);
        svg.text((x + CELL + 4.0, y + 13.0), Anchor::Start, word);
    }
    let x = LEFT + 220.0;
    svg.text((x - 6.0, y + 13.0), Anchor::End, "oldest");
    for step in 0..8 {
        let rank = f64::from(step) / 7.0;
        cell(svg, (x + CELL * f64::from(step), y), &sample(Kind::Log, true), rank, "age");
    }
    svg.text((x + CELL * 8.0 + 6.0, y + 13.0), Anchor::Start, "newest sequence number");
}

#[cfg(test)]
mod tests {
    use crate::layout::PAGE_BYTES;
    use crate::tool::trial::{said, text, Folder};

    #[test]
    fn every_page_is_a_cell_that_says_what_it_is() {
        let folder = Folder::new("picture");
        let (pool, picture) = (folder.prepared("p"), folder.file("p.svg"));
        text(&["put", &pool, "7", "100"]);
        assert_eq!(text(&["picture", &pool, &picture]), "");
        let drawn = std::fs::read_to_string(&picture).expect("is there");
        assert_eq!(drawn.matches("<title>page ").count(), 128);
        for words in [
            "page 0: log page, live, sequence number 2",
            "page 1: checkpoint page, dead, sequence number 3",
            "page 3: checkpoint page, live, sequence number 5",
            "page 4: blank",
        ] {
            assert!(drawn.contains(&format!("<title>{words}</title>")), "{words}");
        }
        let pale = "fill=\"hsl(35,50%,92%)\" stroke=\"#bbbbbb\"><title>page 1: checkpoint page, dead";
        assert!(drawn.contains(pale) && !drawn.contains("92%)\" stroke=\"#222222\""), "dead pages alone are pale");
        let mut bytes = std::fs::read(&pool).expect("is there");
        bytes[PAGE_BYTES + 10] ^= 1;
        std::fs::write(&pool, &bytes[..bytes.len() - 1]).expect("is written");
        text(&["picture", &pool, &picture, "--force"]);
        let drawn = std::fs::read_to_string(&picture).expect("is there");
        assert!(drawn.contains("<title>page 1: does not check, sequence number 3</title>"));
        assert!(drawn.contains("is refused with 1: the pool: no length of a pool"));
        assert_eq!(said(&["picture", &pool, "/nowhere/p.svg"]).status, 2);
    }
}
