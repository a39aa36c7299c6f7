//! Pages of FENs for the tests of the host's side, and what each line of them is owed: the record or the refusal of the crate, number and
//! offset of a refusal by the rules of `compare`.

use both::abi::Fen;
use both::games::{Positions, STARTS};
use both::random::Random;
use compare::fen::owed_read;
use compare::page::{lines, FenPage};
use compare::part::Part;
use std::fmt::Write as _;

const RANDOM: usize = 40;
const JOINED: usize = 8;
const POSITIONS: usize = 200;

const HEAD: &str = r#"# Pages of FENs (document 02, order 7) and what each of their lines is owed. Made by oracle/remake-vectors, not by hand: records and
# refusals are those of the crate chess 3.2.0, number and offset of a refusal are by document 02, order 2 (oracle/compare/src/rules.rs).
#
#     pages COUNT                      so many pages follow
#     page LINES: WHAT                 a page of so many lines, each in a row of its own
#     joined LINES: WHAT               the same; its text is that of the page before the last and that of the last behind it
#     NUMBER OFFSET RECORD "TEXT"      a line: its two numbers, its record, and its bytes with the newline that ends it, if one does
#
# RECORD is 68 numbers, a hexadecimal digit each: squares a1 to h1, a2 to h2 and so on up to h8, then the side, White's rights, Black's
# rights and the en passant file; it is `-` where all are 0 because the line is refused. TEXT stands between the first quotation mark of
# its row and the last; a byte that is no printable ASCII is \n, \r or \xHH, and a backslash is \\.
"#;

struct Page {
    word: &'static str,
    what: String,
    text: String,
}

fn page(what: &str, text: impl Into<String>) -> Page {
    Page { word: "page", what: what.to_string(), text: text.into() }
}

/// Where lines end, and which bytes belong to them.
const ENDS: [(&str, &str); 17] = [
    ("no byte", ""),
    ("a byte", "8"),
    ("a byte and a newline", "8\n"),
    ("a newline alone", "\n"),
    ("two newlines", "\n\n"),
    ("seven newlines", "\n\n\n\n\n\n\n"),
    ("an empty line first", "\n w - -"),
    ("an empty line between", "8\n\n8"),
    ("an empty line last", " w - -\n\n"),
    ("empty lines among good ones", " w - -\n\nK b - -\n\n\n8/k W - -\n"),
    ("a good line", " w - -"),
    ("a good line and a newline", " w - -\n"),
    ("a good last line that is not ended", "8 x - -\n w - -"),
    ("a bad last line that is not ended", " w - -\n8 x - -"),
    ("a carriage return belongs to its line", " w - -\r\n8 w\r - -\r\n\r\n8/k b KQ e3\r\n\r"),
    ("a carriage return ends no line", "8 w - -\r8 b - -\r"),
    ("a byte 0 ends no line", "\0\n8\0 w - -\n \0 - -\nK w \0 -\0 8\n\0"),
];

/// What is wrong with a line, and what is not.
const FAULTS: [(&str, &str); 8] = [
    ("the three refusals", "8/8 w -\n8/9 w - -\n8 x - -\n"),
    ("the three refusals, the last line not ended", "8/8 w -\n8/9 w - -\n8 x - -"),
    ("18: fewer than four tokens, and two lines that have four", " \n  \n   \n8\n8 \n8 w\n8 w \n8 w -\n8 w - \n9\n9 x -\n"),
    ("19: the first bad byte of the placement", "9 w - -\n89 w - -\n8/8/0/9 w - -\nPPPPPPPPx w - -\nKQa1 x - -\n. . . .\n"),
    ("20: the side token", "  - -\n8  - -\n8 - - -\n8 ww - -\nkK WB - -\n8/8/8/8/8/8/8/8 white KQkq e3\n"),
    ("sides, rights and en passant", "8 w KQkq a3\n8 W kK h6\n8 b QQqq e9\n8 B xyz a\n8 b - i3\n8 w  \n8 w KQkqKQ d6xx\n"),
    ("what stands behind four tokens", "K w - - 0 1\nK w - - 7 9 x\nK w - -  \nK b - e3 \"\nK b - - \\n\n"),
    ("quotation marks and backslashes", "\"\n\"\" w - -\n\\ w - -\n \\ - -\n w \"\\x41\" \\\\\n\\"),
];

/// Pages that are told by hand.
fn told() -> impl Iterator<Item = Page> {
    let rows = ENDS.iter().chain(&FAULTS).map(|(what, text)| page(what, *text));
    let start = ["", "\n", "\r\n"].map(|end| page("the initial position", format!("{}{}", STARTS[0], end)));
    let smallest = page("the smallest texts of docs/DIFFERENCES.md", crate::FENS.join("\n"));
    rows.chain(start).chain([smallest, page("where games begin", STARTS.join("\n") + "\n")])
}

/// A line for each, made by a function.
fn each<T>(all: impl IntoIterator<Item = T>, line: impl Fn(T) -> String) -> String {
    all.into_iter().map(|one| line(one) + "\n").collect()
}

/// Every ASCII byte and some wider characters in each token, and placements of every length.
fn rows() -> Vec<Page> {
    let ascii = || (0..128u8).map(char::from);
    let wide = || "\u{80}\u{7FF}\u{800}\u{FFFF}\u{10000}\u{10FFFF}éа€𝄞".chars();
    let lengths = [15, 16, 17, 31, 32, 33, 63, 64, 65, 127, 128, 255, 256, 257, 1_000];
    vec![
        page("every ASCII byte behind a man; the newline ends a line", each(ascii(), |c| format!("K{} w - -", c))),
        page("every ASCII byte as the side; the newline ends a line", each(ascii(), |c| format!("8 {} - -", c))),
        page("every ASCII byte among the rights; the newline ends a line", each(ascii(), |c| format!(" w K{}q e6", c))),
        page("characters of two bytes and more behind men", each(wide(), |c| format!("KQ{} w - -", c))),
        page("characters of two bytes and more as the side", each(wide(), |c| format!("KQ {} - -", c))),
        page("characters of two bytes and more in later tokens", each(wide(), |c| format!(" b {}k {}e3 {}", c, c, c))),
        page("characters of two bytes and more alone", each(wide(), String::from)),
        page("long placements", each(lengths, |n| "P".repeat(n) + " w - -")),
        page("long placements with a bad last byte", each(lengths, |n| "k".repeat(n) + "x w - -")),
        page("long lines of one token", each(lengths, |n| "8".repeat(n))),
        page("rows past the edge", each(0..20, |n| "/".repeat(n) + "k b - -")),
        page("digits past the edge", each(0..20, |n| "7".repeat(n) + "Q b - -")),
    ]
}

fn positions() -> Page {
    let (mut positions, mut random) = (Positions::default(), Random::new(1, "vectors: positions of pages"));
    let fens = std::iter::repeat_with(|| positions.next(&mut random)).take(POSITIONS);
    page("positions of games", each(fens, |board| board.to_string()))
}

/// Two pages, the first ended, and the page of both joined.
fn three(what: &str, first: String, second: String) -> [Page; 3] {
    let joined = format!("{}{}", first, second);
    let named = |part: &str| format!("{}, {}", what, part);
    [page(&named("the first"), first), page(&named("the second"), second), Page { word: "joined", what: named("both"), text: joined }]
}

fn random() -> Vec<Page> {
    let (mut part, mut random) = (FenPage::default(), Random::new(1, "vectors: pages"));
    let mut next = || part.random(&mut random).expect("there is always one more").text;
    let mut all: Vec<Page> = (1..=RANDOM).map(|n| page(&format!("random page {}", n), next())).collect();
    all.extend(three("two lines", "8/8 w -\n".to_string(), "K b - e3".to_string()));
    all.extend(three("an empty first", String::new(), "9 w - -\n".to_string()));
    all.extend(three("an empty second", "\n".to_string(), String::new()));
    for n in 1..=JOINED {
        let mut first = next();
        if !first.ends_with('\n') {
            first.push('\n');
        }
        all.extend(three(&format!("random pages to join {}", n), first, next()));
    }
    all
}

fn escaped(text: &str) -> String {
    let byte = |byte: u8| match byte {
        b'\n' => "\\n".to_string(),
        b'\r' => "\\r".to_string(),
        b'\\' => "\\\\".to_string(),
        b' '..=b'~' => char::from(byte).to_string(),
        _ => format!("\\x{:02x}", byte),
    };
    text.bytes().map(byte).collect()
}

fn record(fen: &Fen) -> String {
    if fen.number != 0 {
        return "-".to_string();
    }
    let digits = |numbers: &[u8]| numbers.iter().map(|n| format!("{:x}", n)).collect::<String>();
    fen.board.numbers.chunks(8).map(digits).collect::<Vec<_>>().join("/")
}

fn put(out: &mut String, page: &Page) -> Result<(), String> {
    let (lines, mut left) = (lines(&page.text), &page.text[..]);
    writeln!(out, "\n{} {}: {}", page.word, lines.len(), page.what).expect("a String takes all");
    for line in lines {
        let (fen, _) = owed_read(line)?;
        let ended = left[line.len()..].starts_with('\n') as usize;
        let (text, behind) = left.split_at(line.len() + ended);
        writeln!(out, "{} {} {} \"{}\"", fen.number, fen.offset, record(&fen), escaped(text)).expect("a String takes all");
        left = behind;
    }
    assert_eq!(left, "", "a page is its lines");
    Ok(())
}

pub fn written() -> Result<String, String> {
    let all: Vec<Page> = told().chain(rows()).chain([positions()]).chain(random()).collect();
    let mut out = format!("{}\npages {}\n", HEAD, all.len());
    all.iter().try_for_each(|page| put(&mut out, page))?;
    Ok(out)
}
