//! `html`: a pool as one page to look at, without network or libraries.

mod blocks;
mod charges;
mod data;
mod tree;

use std::path::Path;

use super::fault_runs::runs;
use super::ledger::Sums;
use super::words::{counted, Options, Words};
use super::{dump, file, stats, Said, Stop, Verb};
use crate::marks::{marks, Kind};
use crate::mount::{examine, Examined};
use crate::refusal::{words as refusal_words, Fault};
use crate::svg::escaped;

pub(super) const VERB: Verb = Verb {
    name: "html",
    words: "FILE OUT.html",
    about: "the pool as one page to look at, where a typed key lights its path",
    more: "The page is one file that needs no network. It has the blocks and pages (dead ones pale), the tree, how\n\
           full nodes and blocks are, and with --ledger the charges by panel and by day. A key that is typed, or that\n\
           stands behind the name as #key=70, lights the nodes on its path and the pages that they live on. A pool\n\
           that is refused is shown too, with its faults. A page that is there already is kept, unless --force is\n\
           given.",
    options: &["--ledger", "--force", "--spare", "--offset", "--swap"],
    run,
};

fn run(words: &mut Words<'_>, options: &Options) -> Result<Said, Stop> {
    let (name, target) = (words.word("a file")?, words.word("a file for the page")?);
    words.end()?;
    let bytes = dump::read(name, options)?;
    let ledger = match &options.ledger {
        None => None,
        Some(ledger) => Some((short(ledger), Sums::of(&file::read_text(ledger)?))),
    };
    let inputs: Vec<&str> = [name].into_iter().chain(options.ledger.as_deref()).collect();
    file::write(target, page(&short(name), &bytes, ledger.as_ref()).as_bytes(), &inputs, options.force)?;
    Ok(Said::default())
}

/// The last part of a file's name.
fn short(name: &str) -> String {
    Path::new(name).file_name().unwrap_or_default().to_string_lossy().into_owned()
}

/// The whole page.
fn page(name: &str, bytes: &[u8], ledger: Option<&(String, Sums)>) -> String {
    let Examined { faults, mounted } = examine(bytes);
    let marks = marks(bytes);
    let mut out = head(name);
    out.push_str(&header(name, bytes, &faults));
    out.push_str(&seek(mounted.is_some()));
    out.push_str("<main>\n");
    out.push_str(&fault_list(&faults, bytes.len()));
    out.push_str(&blocks::section(bytes, &marks, mounted.is_some()));
    if let Some(mounted) = &mounted {
        let all_check = marks.iter().all(|mark| mark.kind != Kind::Broken);
        out.push_str(&tree::section(mounted, all_check));
        out.push_str(&tree::fill(mounted));
    }
    if let Some((name, sums)) = ledger {
        out.push_str(&charges::section(name, sums));
    }
    out.push_str(&figures(bytes));
    out.push_str("</main>\n");
    out.push_str(&format!("<script type=\"application/json\" id=\"data\">{}</script>\n", data::json(mounted.as_ref())));
    out.push_str(&format!("<script>\n{}</script>\n</html>\n", include_str!("html/page.js")));
    out
}

fn head(name: &str) -> String {
    let style = include_str!("html/page.css");
    format!(
        "<!doctype html>\n<html lang=\"en\">\n<meta charset=\"utf-8\">\n\
         <meta name=\"viewport\" content=\"width=device-width\">\n<title>{}</title>\n<style>\n{style}</style>\n",
        escaped(name)
    )
}

/// The pool's name, and whether it opens.
fn header(name: &str, bytes: &[u8], faults: &[Fault]) -> String {
    let state = match faults.first() {
        None => "<p class=\"good\">opens</p>".to_string(),
        Some(fault) => {
            let number = fault.refusal.number();
            format!("<p class=\"bad\">is refused with {number}: {}</p>", refusal_words(number))
        }
    };
    let title = format!("<h1>{}</h1>", escaped(name));
    format!("<header>{title}{state}<p class=\"sub\">{}</p></header>\n", escaped(&stats::size(bytes)))
}

/// Where a key is typed, if there is a tree, and what is said of it.
fn seek(has_tree: bool) -> String {
    let (label, words) = match has_tree {
        true => (
            "<label>Key<input id=\"key\" autocomplete=\"off\" spellcheck=\"false\" placeholder=\"70 or 0x46\"></label>",
            "A key lights its path; a node lights its pages, a page its nodes.",
        ),
        false => ("", "No tree can be read, so no key can be looked up. A page tells what it is."),
    };
    format!(
        "<form id=\"seek\">{label}<output id=\"said\" aria-live=\"polite\">{words}</output>\
         <div id=\"pairs\"></div></form>\n"
    )
}

/// Lines of faults that are told here; `check` tells all.
const MOST_FAULTS: usize = 100;

/// The faults as `check` tells them, each with its number in front.
fn fault_list(faults: &[Fault], bytes: usize) -> String {
    if faults.is_empty() {
        return String::new();
    }
    let mut out = format!("<section><h2>{}</h2>\n<ul class=\"faults\">", counted(faults.len(), "fault"));
    let lines: Vec<String> = runs(faults).iter().map(|run| run.line(bytes)).collect();
    for line in lines.iter().take(MOST_FAULTS) {
        let (number, words) = line.trim_end().split_once(": ").unwrap_or(("", line));
        out.push_str(&format!("<li><b>{number}</b>{}</li>\n", escaped(words)));
    }
    out.push_str("</ul>\n");
    if lines.len() > MOST_FAULTS {
        out.push_str(&format!("<p>and {} more: wallbook check tells all.</p>\n", lines.len() - MOST_FAULTS));
    }
    out.push_str(
        "<p class=\"sub\">The number is that of the refusal. From 6 on the pages that check are spoken of.</p>",
    );
    out.push_str("</section>\n");
    out
}

/// The figures that `stats` prints.
fn figures(bytes: &[u8]) -> String {
    let mut out = String::from("<section><h2>Figures</h2>\n<dl>");
    for (what, figure) in stats::figures(bytes) {
        out.push_str(&format!("<dt>{what}</dt><dd>{}</dd>\n", escaped(&figure)));
    }
    out.push_str("</dl></section>\n");
    out
}

#[cfg(test)]
mod tests {
    use crate::damage;
    use crate::foreign::{self, Build, PoolStyle};
    use crate::layout::{page_range, MAX_BLOCKS};
    use crate::random::Random;
    use crate::tool::trial::{said, text, Folder};

    /// The page of a pool, by way of files.
    fn page(folder: &Folder, pool: &str) -> String {
        let out = folder.file("out.html");
        assert_eq!(text(&["html", pool, &out, "--force"]), "");
        std::fs::read_to_string(out).expect("is there")
    }

    #[test]
    fn a_page_has_every_page_every_node_and_the_figures() {
        let folder = Folder::new("html");
        let pool = folder.prepared("p");
        let csv: String = (0..60).map(|key| format!("{key},{}\n", 7 * key)).collect();
        std::fs::write(folder.file("csv"), csv).expect("is written");
        text(&["import", &pool, &folder.file("csv")]);
        let page = page(&folder, &pool);
        for at in [0, 1, 31, 32, 127] {
            assert!(page.contains(&format!("<b id=\"p{at}\" class=\"")), "{at}");
        }
        assert!(page.contains(" title=\"page 0: log page, dead, sequence number 2\""));
        assert!(
            page.contains("id=\"n0\"") && page.contains(" title=\"node 1: leaf of 12 keys, 0 to 11, next leaf 2; ")
        );
        assert!(page.contains("[1,[0,1,2,3,4,5,6,7,8,9,10,11],[0,7,14,21,28,35,42,49,56,63,70,77],2,["));
        for part in ["<h1>p</h1><p class=\"good\">opens</p>", "<dt>room</dt>", "65,536 bytes in 4 blocks"] {
            assert!(page.contains(part), "{part}");
        }
        assert!(!page.contains("http:") && !page.contains("https:") && !page.contains(" src="), "it asks for nothing");
        assert!(!page.contains("Charges"));
    }

    #[test]
    fn names_do_not_become_markup() {
        let folder = Folder::new("html-names");
        let (pool, ledger) = (folder.prepared("<i>&\"p"), folder.file("<b>.csv"));
        text(&["run", &pool, "0200080000000700000064", "--ledger", &ledger]);
        let out = folder.file("out");
        text(&["html", &pool, &out, "--ledger", &ledger]);
        let page = std::fs::read_to_string(&out).expect("is there");
        assert!(page.contains("<h1>&lt;i&gt;&amp;&quot;p</h1>") && page.contains("&lt;b&gt;.csv: 1 call on "));
        assert!(!page.contains("<i>&") && !page.contains("<b>.csv"));
        assert!(page.contains("<th>panel 0</th>") && page.contains("<h2>Charges</h2>"));
    }

    #[test]
    fn refused_pools_have_their_faults_and_any_bytes_a_page() {
        let folder = Folder::new("html-refused");
        let pool = folder.prepared("p");
        let mut bytes = std::fs::read(&pool).expect("is there");
        bytes[22] ^= 1;
        std::fs::write(&pool, &bytes).expect("is written");
        let refused = page(&folder, &pool);
        for part in ["is refused with 5: ", "<li><b>5</b>page 0, byte 28: the sum differs</li>", "class=\"x\""] {
            assert!(refused.contains(part), "{part}");
        }
        assert!(
            refused.contains("No tree can be read") && !refused.contains("id=\"key\"") && !refused.contains(", dead")
        );
        let mut random = Random::new(31);
        for length in [0, 1, 511, 512, 16_384, 70_000] {
            std::fs::write(&pool, random.bytes(length)).expect("is written");
            assert!(page(&folder, &pool).contains("is refused with 1: "), "{length}");
        }
        let mut whole = foreign::make(&mut random, PoolStyle { blocks: 6, build: Build::Any }).pool;
        damage::change_byte(&mut random, &mut whole);
        std::fs::write(&pool, &whole[..page_range(100).end]).expect("is written");
        assert!(page(&folder, &pool).ends_with("</html>\n"));
    }

    #[test]
    fn the_page_of_the_largest_pool_is_small() {
        let folder = Folder::new("html-large");
        let pool = folder.file("p");
        let style = PoolStyle { blocks: MAX_BLOCKS, build: Build::Deep };
        let tight = foreign::make(&mut Random::new(5), PoolStyle { build: Build::Tight, ..style }).pool;
        for bytes in [tight, foreign::make(&mut Random::new(6), style).pool] {
            std::fs::write(&pool, bytes).expect("is written");
            let page = page(&folder, &pool);
            assert!(page.len() < 1 << 20, "{} bytes", page.len());
        }
    }

    #[test]
    fn a_page_never_lands_on_what_it_is_made_of() {
        let folder = Folder::new("html-onto");
        let (pool, ledger) = (folder.prepared("p"), folder.file("l"));
        text(&["run", &pool, "-", "--ledger", &ledger]);
        for target in [&pool, &ledger] {
            let line = ["html", &pool, target, "--ledger", &ledger, "--force"];
            assert_eq!(said(&line).status, 2, "{target}");
        }
        text(&["html", &pool, &folder.file("h")]);
        assert_eq!(said(&["html", &pool, &folder.file("h")]).status, 2, "it is there already");
    }
}
