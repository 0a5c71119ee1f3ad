//! The page of a pool in a real browser: a key in its address lights the right nodes and pages.

use std::collections::BTreeSet;
use std::fs::File;
use std::io::Write;
use std::path::PathBuf;
use std::process::{Command, Stdio};
use std::time::{Duration, Instant};

use yokehour_host::mount::{mount, Mounted};

use crate::programs::Folder;

const BROWSERS: [&str; 3] = ["chromium", "chromium-browser", "google-chrome"];
const PATIENCE: Duration = Duration::from_secs(120);

/// A browser of this machine, or a word that there is none.
fn browser() -> Option<PathBuf> {
    let folders: Vec<PathBuf> = std::env::split_paths(&std::env::var_os("PATH").unwrap_or_default()).collect();
    let places = BROWSERS.iter().flat_map(|name| folders.iter().map(move |folder| folder.join(name)));
    let found = places.into_iter().find(|place| place.is_file());
    if found.is_none() {
        // Past the test harness, which keeps what `eprintln` writes to itself.
        let _ = writeln!(std::io::stderr(), "the page of a pool is not tried: none of {BROWSERS:?} is on PATH");
    }
    found
}

/// What a browser makes of a page of the folder, once its script has run.
fn dom(browser: &PathBuf, folder: &Folder, page: &str, behind: &str) -> String {
    let (own, out) = (folder.path("browser"), folder.path("dom"));
    let address = format!("file://{}{behind}", folder.path(page).display());
    let mut child = Command::new(browser)
        .args(["--headless", "--no-sandbox", "--disable-gpu", "--no-first-run", "--dump-dom"])
        .arg(format!("--user-data-dir={}", own.display()))
        .arg(&address)
        .stdout(File::create(&out).expect("is made"))
        .stderr(Stdio::null())
        .spawn()
        .expect("runs");
    let end = Instant::now() + PATIENCE;
    while child.try_wait().expect("is ours").is_none() {
        if Instant::now() > end {
            let _ = child.kill();
            panic!("{address}: no answer of the browser in {PATIENCE:?}");
        }
        std::thread::sleep(Duration::from_millis(20));
    }
    std::fs::read_to_string(&out).expect("is text")
}

/// The names of the elements that are lit.
fn lit(dom: &str) -> BTreeSet<String> {
    let attribute = |tag: &str, name: &str| -> Option<String> {
        Some(tag.split(&format!(" {name}=\"")).nth(1)?.split('"').next()?.to_string())
    };
    let tags = dom.split('<').skip(1).map(|tag| tag.split('>').next().unwrap_or_default());
    let is_lit = |tag: &&str| attribute(tag, "class").is_some_and(|class| class.split(' ').any(|word| word == "lit"));
    tags.filter(is_lit).filter_map(|tag| attribute(tag, "id")).collect()
}

/// The names that a key should light: the nodes from the root to its leaf, and their pages.
fn path(mounted: &Mounted, key: u32) -> BTreeSet<String> {
    let mut ids = vec![0];
    while let Some(node) = Some(&mounted.nodes[ids[ids.len() - 1]]).filter(|node| !node.is_leaf()) {
        ids.push(node.child(node.child_place(key)) as usize);
    }
    let pages = ids.iter().flat_map(|&id| mounted.rows[id].pages.iter().map(|page| format!("p{page}")));
    ids.iter().map(|id| format!("n{id}")).chain(pages).collect()
}

#[test]
fn a_key_lights_its_path() {
    let Some(browser) = browser() else { return };
    let folder = Folder::new("browser");
    folder.status("prepare p 8 --book second");
    let csv: String = (1..=400).map(|key| format!("{},{key}\n", 10 * key)).collect();
    std::fs::write(folder.path("csv"), csv).expect("is written");
    assert_eq!(folder.status("import p csv --book second"), Some(0));
    assert_eq!(folder.status("html p p.html"), Some(0));
    let mounted = mount(&folder.bytes("p")).expect("opens");
    for (behind, key, words) in [
        ("#key=70", 70, "Key 70 has value 7: "),
        // A key that stands in a branch too: it belongs to the leaf on its right.
        ("#key=0x82", 130, "Key 130 has value 13: "),
        ("#key=4294967295", u32::MAX, "Key 4294967295 is not there; "),
    ] {
        let dom = dom(&browser, &folder, "p.html", behind);
        let expected = path(&mounted, key);
        assert!(expected.iter().filter(|name| name.starts_with('n')).count() == 3, "a tree of three levels");
        assert_eq!(lit(&dom), expected, "{behind}");
        assert!(dom.contains(words), "{behind}");
        assert_eq!(dom.matches("<span class=\"hit\">").count(), usize::from(key != u32::MAX), "{behind}");
    }
    let wrong = dom(&browser, &folder, "p.html", "#key=4294967296");
    assert!(lit(&wrong).is_empty() && wrong.contains("A key is a number below 4,294,967,296"));
}

/// A page with keys that are pressed one after the other, each where the one before has led.
fn pressed(folder: &Folder, name: &str, first: &str, keys: &[&str]) {
    let mut page = String::from_utf8(folder.bytes("p.html")).expect("is text");
    page.push_str(&format!("<script>document.getElementById(\"{first}\").focus();\n"));
    for key in keys {
        let event = format!("new KeyboardEvent(\"keydown\", {{ key: \"{key}\", bubbles: true }})");
        page.push_str(&format!("document.activeElement.dispatchEvent({event});\n"));
    }
    page.push_str("</script>");
    std::fs::write(folder.path(name), page).expect("is written");
}

#[test]
fn keys_move_among_pages_and_nodes() {
    let Some(browser) = browser() else { return };
    let folder = Folder::new("browser-keys");
    folder.status("prepare p 4 --book second");
    let csv: String = (1..=60).map(|key| format!("{key},0\n")).collect();
    std::fs::write(folder.path("csv"), csv).expect("is written");
    folder.status("import p csv --book second");
    assert_eq!(folder.status("html p p.html"), Some(0));
    let mounted = mount(&folder.bytes("p")).expect("opens");
    let pages = |id: usize| mounted.rows[id].pages.iter().map(|page| format!("p{page}"));
    pressed(&folder, "pages.html", "p0", &["ArrowRight", "ArrowDown", "ArrowLeft", "ArrowRight"]);
    assert_eq!(lit(&dom(&browser, &folder, "pages.html", "")), BTreeSet::from(["p33".to_string()]));
    // From the root down to its first leaf, and to the next.
    let leaf = mounted.nodes[0].child(1) as usize;
    pressed(&folder, "nodes.html", "n0", &["ArrowDown", "ArrowRight"]);
    let expected: BTreeSet<String> = pages(leaf).chain([format!("n{leaf}")]).collect();
    assert_eq!(lit(&dom(&browser, &folder, "nodes.html", "")), expected);
    pressed(&folder, "up.html", "n0", &["ArrowDown", "ArrowUp"]);
    let expected: BTreeSet<String> = pages(0).chain(["n0".to_string()]).collect();
    assert_eq!(lit(&dom(&browser, &folder, "up.html", "")), expected);
    pressed(&folder, "escape.html", "n0", &["ArrowDown", "Escape"]);
    assert!(lit(&dom(&browser, &folder, "escape.html", "#key=7")).is_empty());
}

#[test]
fn the_page_of_a_refused_pool_stands_without_a_tree() {
    let Some(browser) = browser() else { return };
    let folder = Folder::with_pool("browser-refused");
    let mut bytes = folder.bytes("p");
    bytes.truncate(bytes.len() - 1);
    std::fs::write(folder.path("p"), bytes).expect("is written");
    assert_eq!(folder.status("html p p.html"), Some(0));
    let dom = dom(&browser, &folder, "p.html", "#key=7");
    assert!(lit(&dom).is_empty() && dom.contains("is refused with 1: "));
    // The script has run: the first page is the one that the tab key comes to.
    assert!(dom.contains("<b id=\"p0\"") && dom.contains("tabindex=\"0\""), "the script ran");
}
