//! A list for one text is the whole list without what the text cannot mean, and the archive reads the text over both alike, refusals too.

use crate::common::{Numbers, games, legal, odd};
use menkhodur::lent::{self, Record};
use menkhodur::{Error, Lends, Lent};
use menkhodur_moves::{Legal, fitting};

/// What the moves of a text have: a kind of man on the source by its letter, and the last square as destination.
fn fits(record: &Record, text: &str, number: u16) -> bool {
    let (source, dest) = (usize::from(number % 64), usize::from(number / 64 % 64));
    let kind = (record.numbers[source] - 1) % 6;
    match text.strip_suffix(['+', '#']).unwrap_or(text) {
        "O-O" => kind == 5 && dest == source + 2,
        "O-O-O" => kind == 5 && dest + 2 == source,
        other => {
            let square = format!("{}{}", char::from(b'a' + dest as u8 % 8), dest / 8 + 1);
            let last = (0..other.len()).rev().find_map(|at| other.get(at..at + 2).filter(|pair| is_square(pair)));
            let letter = other.chars().next().filter(|letter| "NBRQKO".contains(*letter)).unwrap_or('P');
            "PNBRQK".find(letter) == Some(kind.into()) && last == Some(&square)
        }
    }
}

fn is_square(pair: &str) -> bool {
    matches!(pair.as_bytes(), [b'a'..=b'h', b'1'..=b'8'])
}

/// Asks for the filtered list, and for one answer of the reader.
fn check(record: &Record, whole: &[u16], text: &str) -> Result<u16, Error> {
    let mut list = Lent::new();
    fitting(record, text.as_bytes(), &mut list).unwrap();
    let want: Vec<u16> = whole.iter().copied().filter(|number| fits(record, text, *number)).collect();
    assert_eq!(list.as_slice(), want, "{text} {record:?}");
    let read = lent::san_read_standard(record, whole, text.as_bytes());
    assert_eq!(lent::san_read_standard(record, list.as_slice(), text.as_bytes()), read, "{text} {record:?}");
    read
}

fn name(record: &Record, whole: &[u16], number: u16) -> Option<String> {
    let mut room = [0; 8];
    let length = lent::san_name_standard(record, whole, number.into(), &mut room).ok()?;
    Some(room[..length].iter().copied().map(char::from).collect())
}

/// Texts near a name: without a byte, with another in its place, with one more, and marked.
fn near(name: &str, numbers: &mut Numbers) -> Vec<String> {
    const BYTES: &str = "abcdefgh12345678NBRQKOx=+#-0!p ";
    let (at, byte) = (numbers.below(name.len()), numbers.below(BYTES.len()));
    let (front, back, byte) = (&name[..at], &name[at + 1..], &BYTES[byte..=byte]);
    let marked = ["+", "#", "++", "=Q", "!"].map(|mark| format!("{name}{mark}"));
    [format!("{front}{back}"), format!("{front}{byte}{back}"), format!("{front}{byte}{}", &name[at..])].into_iter().chain(marked).collect()
}

fn check_all(records: &[Record]) -> (u64, u64) {
    let (mut numbers, mut read, mut refused) = (Numbers(362_436_069), 0, 0);
    for record in records {
        let whole = legal(record);
        for (number, name) in whole.iter().filter_map(|number| Some((*number, name(record, &whole, *number)?))) {
            assert_eq!(check(record, &whole, &name), Ok(number));
            read += 1;
            for text in near(&name, &mut numbers) {
                refused += u64::from(check(record, &whole, &text).is_err());
            }
        }
    }
    (read, refused)
}

#[test]
fn every_move_of_positions_of_games() {
    let (read, refused) = check_all(&games(521_288_629, 3_000));
    assert!(read > 50_000 && refused > 100_000, "{read} {refused}");
}

#[test]
fn every_move_of_odd_records() {
    let records = odd(123_456_789, 3_000).into_iter().filter(|record| menkhodur_moves::legal(record, &mut Lent::new()).is_ok());
    let (read, refused) = check_all(&records.collect::<Vec<_>>());
    assert!(read > 30_000 && refused > 100_000, "{read} {refused}");
}

#[test]
fn every_kind_and_square() {
    let kinds = ["", "N", "B", "R", "Q", "K"];
    for record in games(77_777, 150).iter().chain(&odd(99_999, 150)) {
        let mut list = Lent::new();
        if menkhodur_moves::legal(record, &mut list).is_err() {
            continue;
        }
        for text in kinds.iter().flat_map(|kind| (0..64).map(move |at| format!("{kind}{}{}", char::from(b'a' + at % 8), at / 8 + 1))) {
            let _ = check(record, list.as_slice(), &text);
        }
        for text in ["O-O", "O-O-O", "O-O+", "O-O-O#", "O-O-O-O", "O", "N", "x", "-", "é4", "e"] {
            let _ = check(record, list.as_slice(), text);
        }
    }
}

#[test]
fn the_host_lends_all_for_an_empty_text() {
    for record in games(31_337, 300) {
        let (mut list, whole) = (Lent::new(), legal(&record));
        Legal.lend(&record, b"", &mut list).unwrap();
        assert_eq!(list.as_slice(), whole);
        for name in whole.iter().filter_map(|number| name(&record, &whole, *number)) {
            Legal.lend(&record, name.as_bytes(), &mut list).unwrap();
            let mut fitted = Lent::new();
            fitting(&record, name.as_bytes(), &mut fitted).unwrap();
            assert_eq!(list, fitted);
        }
    }
}
