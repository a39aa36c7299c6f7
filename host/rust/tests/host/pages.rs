//! Pages of which the crate chess 3.2.0 was asked before: pages.txt, which tells its form. No expectation here comes from the archive.

use menkhodur::lent::{self, Numbers, PAGE_NUMBERS};
use menkhodur::{Board, Error, PageReader};

const PAGES: &str = include_str!("pages.txt");

#[derive(Clone, PartialEq, Eq, Debug)]
pub struct Line {
    /// With the newline that ends it, if one does.
    pub text: Vec<u8>,
    pub record: Numbers,
    pub told: [u64; PAGE_NUMBERS],
}

pub struct Vector {
    pub what: &'static str,
    joined: bool,
    pub lines: Vec<Line>,
}

impl Vector {
    fn text(&self) -> Vec<u8> {
        self.lines.iter().flat_map(|line| &line.text).copied().collect()
    }

    fn records(&self) -> Vec<Numbers> {
        self.lines.iter().map(|line| line.record).collect()
    }

    fn told(&self) -> Vec<[u64; PAGE_NUMBERS]> {
        self.lines.iter().map(|line| line.told).collect()
    }
}

fn unescaped(shown: &str) -> Vec<u8> {
    let (mut text, mut left) = (Vec::new(), shown.bytes());
    while let Some(byte) = left.next() {
        let escape = (byte == b'\\').then(|| left.next().unwrap());
        let mut digit = || char::from(left.next().unwrap()).to_digit(16).unwrap() as u8;
        text.push(match escape {
            None => byte,
            Some(b'n') => b'\n',
            Some(b'r') => b'\r',
            Some(b'x') => 16 * digit() + digit(),
            Some(b'\\') => b'\\',
            Some(other) => panic!("an escape {other}"),
        });
    }
    text
}

fn record(shown: &str) -> Numbers {
    let digits = shown.chars().filter(|&sign| sign != '/').map(|sign| sign.to_digit(16).unwrap() as u8);
    if shown == "-" { [0; 68] } else { digits.collect::<Vec<_>>().try_into().unwrap() }
}

fn line(row: &str) -> Line {
    let (told, text) = row.split_once(" \"").unwrap();
    let [number, offset, numbers] = told.split(' ').collect::<Vec<_>>()[..] else { panic!("{row}") };
    let told = [number.parse().unwrap(), offset.parse().unwrap()];
    Line { text: unescaped(text.strip_suffix('"').unwrap()), record: record(numbers), told }
}

/// All pages of the file, as many and as long as it says.
pub fn vectors() -> Vec<Vector> {
    let mut rows = PAGES.lines().filter(|row| !row.is_empty() && !row.starts_with('#'));
    let count: usize = rows.next().and_then(|row| row.strip_prefix("pages ")).unwrap().parse().unwrap();
    let mut vectors = Vec::new();
    while let Some(row) = rows.next() {
        let (head, what) = row.split_once(": ").unwrap();
        let (word, lines) = head.split_once(' ').unwrap();
        assert!(["page", "joined"].contains(&word), "{row}");
        let lines = rows.by_ref().take(lines.parse().unwrap()).map(line).collect();
        vectors.push(Vector { what, joined: word == "joined", lines });
    }
    assert_eq!(vectors.len(), count);
    vectors
}

/// The call in rooms of so many bytes and so many numbers, full of noise: its answer, and all of both rooms.
fn is_answered(vector: &Vector, [bytes, told]: [usize; 2]) {
    let (lines, mut records, mut numbers) = (vector.lines.len(), vec![0xA5; bytes], vec![0xA5A5; told]);
    let (mut want_records, mut want_numbers) = (records.clone(), numbers.clone());
    let fits = bytes >= 68 * lines && told >= PAGE_NUMBERS * lines;
    if fits {
        want_records[..68 * lines].copy_from_slice(vector.records().as_flattened());
        want_numbers[..PAGE_NUMBERS * lines].copy_from_slice(vector.told().as_flattened());
    }
    let want = if fits { Ok(lines) } else { Err(Error::PageTooShort { lines }) };
    assert_eq!(lent::fen_page(&vector.text(), &mut records, &mut numbers), want, "{}", vector.what);
    assert_eq!(numbers, want_numbers, "{}", vector.what);
    assert!(records == want_records, "{}: the records in {bytes} bytes and {told} numbers", vector.what);
}

#[test]
fn every_line_as_the_crate_answers() {
    for vector in vectors() {
        let [bytes, told] = [68, PAGE_NUMBERS].map(|size| size * vector.lines.len());
        for rooms in [[bytes, told], [bytes + 1, told], [bytes, told + 1], [bytes + 68, told + PAGE_NUMBERS]] {
            is_answered(&vector, rooms);
        }
    }
}

#[test]
fn nothing_in_rooms_too_short() {
    for vector in vectors().iter().filter(|vector| !vector.lines.is_empty()) {
        let [bytes, told] = [68, PAGE_NUMBERS].map(|size| size * vector.lines.len());
        let line_short = [[bytes - 68, told], [bytes, told - PAGE_NUMBERS], [bytes - 68, told - PAGE_NUMBERS]];
        for rooms in line_short.into_iter().chain([[bytes - 1, told], [bytes, told - 1], [0, 0]]) {
            is_answered(vector, rooms);
        }
    }
}

#[test]
fn what_the_types_make_of_it() {
    let mut reader = PageReader::new();
    for vector in vectors() {
        let text = vector.text();
        let page = reader.read(&text);
        assert_eq!((page.records(), page.numbers()), (&vector.records()[..], &vector.told()[..]), "{}", vector.what);
        assert_eq!(page.iter().len(), vector.lines.len());
        for ((bytes, board), line) in page.iter().zip(&vector.lines) {
            assert_eq!(bytes, line.text.strip_suffix(b"\n").unwrap_or(&line.text), "{}", vector.what);
            match board {
                Ok(board) => assert_eq!((board, line.told), (Board::from_numbers(&line.record).unwrap(), [0, 0])),
                Err(refused) => assert_eq!([refused.number(), refused.offset().unwrap() as u64], line.told),
            }
        }
    }
}

#[test]
fn joined_pages_in_two_calls() {
    let vectors = vectors();
    let joined = vectors.windows(3).filter(|three| three[2].joined);
    assert!(joined.clone().count() > 0);
    for three in joined {
        let [first, second, both] = three else { unreachable!() };
        assert_eq!(([first.text(), second.text()].concat(), [&first.lines[..], &second.lines].concat()), (both.text(), both.lines.clone()));
        let (mut records, mut told) = (vec![[0xA5; 68]; both.lines.len()], vec![[9; PAGE_NUMBERS]; both.lines.len()]);
        let before = lent::fen_page(&first.text(), records.as_flattened_mut(), told.as_flattened_mut()).unwrap();
        let behind = lent::fen_page(&second.text(), records[before..].as_flattened_mut(), told[before..].as_flattened_mut());
        assert_eq!((before, behind), (first.lines.len(), Ok(second.lines.len())));
        assert_eq!((records, told), (both.records(), both.told()), "{}", both.what);
    }
}

/// The file shows what it is for.
#[test]
fn the_pages_show_every_answer() {
    let lines: Vec<Line> = vectors().into_iter().flat_map(|vector| vector.lines).collect();
    for number in [0, 18, 19, 20] {
        assert!(lines.iter().filter(|line| line.told[0] == number).count() > 100, "{number}");
    }
    assert!(lines.iter().all(|line| [0, 18, 19, 20].contains(&line.told[0])));
    for byte in 0..=127 {
        assert!(lines.iter().any(|line| line.text.contains(&byte)), "{byte}");
    }
    assert!(lines.iter().any(|line| line.text.iter().any(|&byte| byte > 127)));
}
