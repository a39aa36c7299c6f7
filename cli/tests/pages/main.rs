//! The pages in a browser: Chromium, without a window, opens each, looks at it as wide as a desk's screen and as a phone's, follows its links, reads the
//! diagrams off the document, and prints it. Skipped by name where it is missing.

mod browser;
mod made;

use browser::Browser;
use made::{Page, Shown};
use std::path::Path;
use std::process::Command;

/// What a page is asked in the browser. The answer has no letter that JSON would escape.
const WIDTHS: &str = "document.documentElement.scrollWidth + ' ' + document.documentElement.clientWidth";
const LINKS: &str = "[...document.querySelectorAll('a[href], use[href]')].filter(link => !document.querySelector(':is([id])#' + \
                     CSS.escape(link.getAttribute('href').slice(1)))).length + ' ' + document.querySelectorAll('a[href]').length";
const BOARDS: &str = "[...document.querySelectorAll('svg.board')].map(board => board.querySelector('title').textContent + '=' + \
                      [...board.querySelectorAll('[data-man]')].map(man => man.dataset.square + man.dataset.man).sort().join(',')).join(';')";
/// Men that are not drawn, or not in the middle of their square: by where the browser has put them.
const PLACED: &str = "[...document.querySelectorAll('svg.board')].filter(board => board.getBoundingClientRect().width > 0).flatMap(board => { \
                      const all = board.getBoundingClientRect(), side = all.width * 45 / 384, left = all.left + all.width * 22 / 384, \
                      top = all.top + all.width * 2 / 384; return [...board.querySelectorAll('[data-man]')].filter(man => { \
                      const at = man.getBoundingClientRect(), x = (at.left + at.right) / 2 - left, y = (at.top + at.bottom) / 2 - top; \
                      return at.width < side / 3 || 'abcdefgh'[Math.floor(x / side)] + (8 - Math.floor(y / side)) !== man.dataset.square; }); }).length";
const SCRIPTS: &str = "document.scripts.length + document.querySelectorAll('img, iframe, link, object, embed').length";

/// The most sheets of paper that a ruling takes.
const SHEETS: usize = 3;

fn main() {
    for (program, package) in [("chromium", "chromium"), ("tidy", "tidy")] {
        if Command::new(program).arg("--version").output().is_err() {
            println!("skipped: cli/tests/pages: {program} is missing, of the Debian package {package}");
            return;
        }
    }
    let folder = Path::new(env!("CARGO_TARGET_TMPDIR")).join("pages");
    let _ = std::fs::remove_dir_all(&folder);
    std::fs::create_dir_all(&folder).expect("a folder");
    let pages = made::pages(&folder);
    let mut browser = Browser::start(&folder);
    see_that_faults_are_seen(&mut browser, &folder);
    for page in &pages {
        see(page, &mut browser, &folder);
    }
    browser.end();
    println!("cli/tests/pages: {} pages in Chromium; the screenshots are in {}", pages.len(), folder.display());
}

/// A page that is wrong in each way that is looked for: what finds nothing there would find nothing anywhere.
fn see_that_faults_are_seen(browser: &mut Browser, folder: &Path) {
    let path = folder.join("wrong.html");
    let board = "<svg class='board' viewBox='0 0 384 384'><title>8/8</title><rect x='22' y='2' width='45' height='45' data-square='a1' data-man='P'/></svg>";
    let page = format!(
        "<!DOCTYPE html><title>x</title><div style='width:3000px'><a href='#none'>a</a>{board}</div><script>console.log(1)</script>"
    );
    std::fs::write(&path, page).expect("a file");
    browser.size(360, 800, false);
    browser.open(&path);
    let answers = [LINKS, BOARDS, PLACED, SCRIPTS].map(|question| browser.ask(question));
    assert_eq!(answers, ["1 1", "8/8=a1P", "1", "1"]);
    let widths: Vec<usize> = browser.ask(WIDTHS).split(' ').map(|width| width.parse().expect("a width")).collect();
    assert!(widths[0] >= 3000 && widths[1] <= 360 && !browser.messages.is_empty(), "{widths:?} {:?}", browser.messages);
    browser.messages.clear();
}

fn see(page: &Page, browser: &mut Browser, folder: &Path) {
    let name = page.path.file_stem().expect("a name").to_string_lossy().into_owned();
    let tidy = Command::new("tidy").args(["-errors", "-quiet"]).arg(&page.path).output().expect("tidy");
    assert!(tidy.stderr.is_empty() && tidy.status.success(), "{name}: {}", String::from_utf8_lossy(&tidy.stderr));
    for (device, width, height) in [("desktop", 1280, 900), ("phone", 360, 800)] {
        browser.size(width, height, device == "phone");
        browser.open(&page.path);
        let widths: Vec<usize> = browser.ask(WIDTHS).split(' ').map(|width| width.parse().expect("a width")).collect();
        assert!(widths[0] <= widths[1] && widths[1] <= width, "{name} on a {device}: {widths:?}");
        assert_eq!(browser.ask(PLACED), "0", "{name} on a {device}: men that do not stand on their squares");
        let picture = browser.screenshot();
        assert!(picture.starts_with(b"\x89PNG") && picture.len() > 5_000, "{name}: {} bytes", picture.len());
        std::fs::write(folder.join(format!("{name}-{device}.png")), picture).expect("a file");
    }
    let links = browser.ask(LINKS);
    assert!(links.starts_with("0 ") && (links != "0 0" || page.shown.moves == 0), "{name}: {links}");
    assert_eq!(browser.ask(SCRIPTS), "0", "{name}");
    see_boards(&name, &browser.ask(BOARDS), &page.shown);
    let paper = browser.print();
    std::fs::write(folder.join(format!("{name}.pdf")), &paper).expect("a file");
    let sheets = sheets(&paper);
    assert!(sheets >= 1 && (!page.is_ruling || sheets <= SHEETS), "{name}: {sheets} sheets");
    assert_eq!(browser.messages, Vec::<String>::new(), "{name}: what the browser says");
}

/// The men of each diagram are those of its FEN, and the record's FENs, all of them and in order, are behind the evidence.
fn see_boards(name: &str, boards: &str, shown: &Shown) {
    let boards: Vec<(&str, &str)> = boards.split(';').filter_map(|board| board.split_once('=')).collect();
    for (fen, men) in &boards {
        assert_eq!(*men, made::men(fen).join(","), "{name}: {fen}");
    }
    let fens: Vec<&str> = boards.iter().map(|(fen, _)| *fen).collect();
    let owed: Vec<&str> = shown.fens.iter().map(String::as_str).collect();
    assert!(fens.ends_with(&owed), "{name}: the diagrams are not those of the record");
}

/// How many sheets a PDF has.
fn sheets(paper: &[u8]) -> usize {
    let text = String::from_utf8_lossy(paper);
    text.split("/Type /Page").skip(1).filter(|rest| !rest.starts_with('s')).count()
}
