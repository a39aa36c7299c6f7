//! Pages of FEN texts: order 7 of document 02.

use crate::common::{Numbers, random_record};
use menkhodur::lent::{self, PAGE_NUMBERS, PAGE_RECORD};
use menkhodur::{Answers, Board, Error, Page, PageReader};

type Pair = [u64; PAGE_NUMBERS];

const TWO_LINES: &[u8] = b"8/8 w -\nK b - e3";

/// The lines of a text: what stands between newlines, and before the first and behind the last of them, but for an empty one at the end.
fn lines(text: &[u8]) -> Vec<&[u8]> {
    let mut lines: Vec<&[u8]> = text.split(|&byte| byte == b'\n').collect();
    if lines.last().is_some_and(|last| last.is_empty()) {
        lines.pop();
    }
    lines
}

/// What a line's record and numbers must be: the single reader's answer.
fn single(line: &[u8]) -> (lent::Numbers, Pair) {
    match lent::fen_read(line) {
        Ok(record) => (record.numbers, [0, 0]),
        Err(refused) => ([0; 68], [refused.number(), refused.offset().unwrap() as u64]),
    }
}

/// The page call in rooms of these lengths, full of noise: the answer, and every byte and number of both rooms.
fn is_read(text: &[u8], bytes: usize, told: usize) {
    let lines = lines(text);
    let (mut records, mut numbers) = (vec![0xA5; bytes], vec![0xA5A5; told]);
    let (mut want_records, mut want_numbers) = (records.clone(), numbers.clone());
    let fits = bytes >= 68 * lines.len() && told >= 2 * lines.len();
    for (at, line) in lines.iter().enumerate().filter(|_| fits) {
        let (record, pair) = single(line);
        want_records[68 * at..][..68].copy_from_slice(&record);
        want_numbers[2 * at..][..2].copy_from_slice(&pair);
    }
    let want = if fits { Ok(lines.len()) } else { Err(Error::PageTooShort { lines: lines.len() }) };
    assert_eq!(lent::fen_page(text, &mut records, &mut numbers), want, "{text:?}");
    assert!(records == want_records && numbers == want_numbers, "{text:?} in {bytes} and {told}");
}

/// The same in rooms that fit, are longer and are one short, each; then what the types make of it, line by line.
fn is_page(text: &[u8], reader: &mut PageReader) {
    let lines = lines(text);
    let (bytes, told) = (68 * lines.len(), 2 * lines.len());
    for (bytes, told) in [(bytes, told), (bytes + 1, told), (bytes, told + 1), (bytes + 69, told + 3)] {
        is_read(text, bytes, told);
    }
    if bytes > 0 {
        for (bytes, told) in [(bytes - 1, told), (bytes, told - 1), (0, told), (bytes, 0), (0, 0), (bytes + 68, told - 2)] {
            is_read(text, bytes, told);
        }
    }
    let page = reader.read(text);
    assert_eq!((page.len(), page.is_empty(), page.text()), (lines.len(), text.is_empty(), text));
    let mut answers = page.iter();
    for (at, &line) in lines.iter().enumerate() {
        let (board, (record, pair)) = (Board::from_fen(line), single(line));
        assert_eq!(answers.len(), lines.len() - at);
        assert_eq!(answers.next(), Some((line, board)), "line {at} of {text:?}");
        assert_eq!((page.get(at), page.records()[at], page.numbers()[at]), (Some(board), record, pair));
    }
    assert_eq!((answers.next(), answers.next(), answers.len(), page.get(lines.len())), (None, None, 0, None));
}

#[test]
fn lines_at_smallest() {
    let rows: [(&[u8], &[&[u8]]); 8] = [
        (b"", &[]),
        (b"8", &[b"8"]),
        (b"8\n", &[b"8"]),
        (b"\n", &[b""]),
        (b"8\n\n8", &[b"8", b"", b"8"]),
        (b"\n\n", &[b"", b""]),
        (b"\n8", &[b"", b"8"]),
        (b"8\n8\n", &[b"8", b"8"]),
    ];
    let mut reader = PageReader::new();
    for (text, want) in rows {
        assert_eq!(reader.read(text).iter().map(|(line, _)| line).collect::<Vec<_>>(), want);
        is_page(text, &mut reader);
    }
}

#[test]
fn pages_at_smallest() {
    let rooms = |bytes: usize, told: usize| (vec![9; bytes], vec![9; told]);
    let (mut records, mut numbers) = rooms(137, 5);
    assert_eq!(lent::fen_page(TWO_LINES, &mut records, &mut numbers), Ok(2));
    assert_eq!(numbers, [18, 7, 0, 0, 9]);
    assert_eq!(records, [&[0; 68 + 56][..], &[6, 0, 0, 0, 0, 0, 0, 0, 1, 0, 0, 5, 9]].concat());
    for (bytes, told) in [(135, 4), (136, 3)] {
        let (mut records, mut numbers) = rooms(bytes, told);
        assert_eq!(lent::fen_page(TWO_LINES, &mut records, &mut numbers), Err(Error::PageTooShort { lines: 2 }));
        assert_eq!((records, numbers), rooms(bytes, told));
    }
    assert_eq!(lent::fen_page(b"", &mut [], &mut []), Ok(0));
    let (mut records, mut numbers) = rooms(136, 4);
    assert_eq!(lent::fen_page(b"8/8 w -\n8/9 w - -\n", &mut records, &mut numbers), Ok(2));
    assert_eq!(numbers, [18, 7, 19, 2]);
    assert_eq!((PAGE_RECORD, PAGE_NUMBERS), (68, 2));
}

#[test]
fn every_short_text() {
    let mut reader = PageReader::new();
    for length in 0..=6_u32 {
        for number in 0..5_usize.pow(length) {
            let text: Vec<u8> = (0..length).map(|at| b"\n w8x"[number / 5_usize.pow(at) % 5]).collect();
            is_read(&text, 68 * lines(&text).len(), 2 * lines(&text).len());
            let answers: Vec<_> = reader.read(&text).iter().collect();
            assert_eq!(answers, lines(&text).into_iter().map(|line| (line, Board::from_fen(line))).collect::<Vec<_>>());
        }
    }
}

#[test]
fn a_page_of_one_line_is_the_single_call() {
    let mut reader = PageReader::new();
    let game: &[u8] = b"rnbqkbnr/pppppppp/8/8/8/8/PPPPPPPP/RNBQKBNR w KQkq -";
    for text in [game, b" w - -", b"8/8 w -", b"9 w - -", b"8 x - -", b" b KQkq e3 0 1", b"\0", b"\r"] {
        is_page(text, &mut reader);
        assert_eq!(reader.read(text).iter().collect::<Vec<_>>(), [(text, Board::from_fen(text))]);
        let ended = [text, b"\n"].concat();
        is_page(&ended, &mut reader);
        assert_eq!(reader.read(&ended).iter().collect::<Vec<_>>(), [(text, Board::from_fen(text))]);
    }
}

#[test]
fn bytes_that_are_no_newline_end_no_line() {
    let mut reader = PageReader::new();
    let crlf = b" w - -\r\n8 w\r - -\r\n\r\n";
    is_page(crlf, &mut reader);
    let answers: Vec<_> = reader.read(crlf).iter().map(|(line, board)| (line.len(), board.map_err(|refused| refused.number()))).collect();
    assert_eq!(answers, [(7, Ok(Board::new())), (9, Err(20)), (1, Err(18))]);
    for byte in (0..=255).filter(|&byte| byte != b'\n') {
        is_page(&[byte], &mut reader);
        is_page(&[b' ', byte, b' ', b'-', b' ', b'-', b'\n', byte, b' ', b'w', b' ', b' ', b'\n', byte], &mut reader);
        assert_eq!(reader.read(&[byte, byte, b'\n', byte]).len(), 2);
    }
}

#[test]
fn long_lines_and_many() {
    let mut reader = PageReader::new();
    for length in [63, 64, 65, 127, 128, 255, 256, 257, 4_095, 4_096, 70_000] {
        let long = vec![b'8'; length];
        is_page(&long, &mut reader);
        is_page(&[&long[..], b"\n", &long, b" w - -\n", &long, b"x w - -\n\n", &long].concat(), &mut reader);
    }
    let many = b"8/8 w -\n9 w - -\n w - -\n\n8 x - -\n".repeat(20_000);
    is_page(&many, &mut reader);
    assert_eq!(reader.read(&many).numbers().iter().filter(|&&[number, _]| number == 0).count(), 20_000);
}

/// A page of lines from records, with their counters, some of them damaged, ended or not.
fn any_page(numbers: &mut Numbers) -> Vec<u8> {
    let mut text = Vec::new();
    for _ in 0..numbers.below(12) {
        let mut line = Board::from_record(&random_record(numbers)).unwrap().to_fen_full().into_bytes();
        for _ in 0..numbers.below(3) {
            let at = numbers.below(line.len() as u64 + 1) as usize;
            match numbers.below(4) {
                0 => line.truncate(at),
                1 => line.insert(at, b"\n \r\0x9w/-\xff"[numbers.below(10) as usize]),
                2 => line.push(b'\n'),
                _ => _ = line.splice(at.saturating_sub(1)..at, *b"8"),
            }
        }
        text.extend(line);
        text.push(b'\n');
    }
    if numbers.below(2) == 0 {
        text.pop();
    }
    text
}

#[test]
fn random_pages() {
    let (mut numbers, mut reader) = (Numbers(20_261_116), PageReader::new());
    for _ in 0..1_500 {
        is_page(&any_page(&mut numbers), &mut reader);
    }
}

#[test]
fn joined_pages() {
    let (mut numbers, mut reader) = (Numbers(20_261_117), PageReader::new());
    for _ in 0..500 {
        let (mut first, second) = (any_page(&mut numbers), any_page(&mut numbers));
        first.push(b'\n');
        let joined = [&first[..], &second].concat();
        let answers = |text: &[u8], reader: &mut PageReader| -> Vec<(Vec<u8>, Result<Board, Error>)> {
            reader.read(text).iter().map(|(line, board)| (line.to_vec(), board)).collect()
        };
        let parts = [answers(&first, &mut reader), answers(&second, &mut reader)].concat();
        assert_eq!(answers(&joined, &mut reader), parts);
        // The second into the rooms behind what the first has filled.
        let count = lines(&joined).len();
        let (mut records, mut told) = (vec![0xA5; 68 * count], vec![9; 2 * count]);
        let before = lent::fen_page(&first, &mut records, &mut told).unwrap();
        let behind = lent::fen_page(&second, &mut records[68 * before..], &mut told[2 * before..]).unwrap();
        assert_eq!(before + behind, count);
        let page = reader.read(&joined);
        assert_eq!((page.records().as_flattened(), page.numbers().as_flattened()), (&records[..], &told[..]));
    }
}

#[test]
fn rooms_of_the_callers() {
    let (mut records, mut numbers) = ([[0xA5; 68]; 3], [[9; 2]; 4]);
    let page = Page::lent(TWO_LINES, &mut records, &mut numbers).unwrap();
    assert_eq!(page.len(), 2);
    assert_eq!(page.iter().map(|(_, board)| board.is_ok()).collect::<Vec<_>>(), [false, true]);
    assert_eq!((records[2], numbers[2], numbers[3]), ([0xA5; 68], [9; 2], [9; 2]));
    let (kept, told) = (records, numbers);
    for (most_records, most_numbers) in [(1, 4), (3, 1), (0, 0)] {
        let refused = Page::lent(b"8\n8", &mut records[..most_records], &mut numbers[..most_numbers]).unwrap_err();
        assert_eq!((refused, refused.number(), refused.offset()), (Error::PageTooShort { lines: 2 }, 7, None));
    }
    assert_eq!((records, numbers), (kept, told));
    assert!(Page::lent(b"", &mut [], &mut []).unwrap().is_empty());
}

#[test]
fn a_reader_takes_pages_of_any_length() {
    let mut reader = PageReader::for_lines(2);
    for count in [1, 2, 3, 1, 40, 0, 39, 41] {
        let text = TWO_LINES.repeat(count);
        let page = reader.read(&text);
        assert_eq!(page.len(), lines(&text).len());
        assert_eq!(page.into_iter().map(|(line, _)| line).collect::<Vec<_>>(), lines(&text));
    }
    // The text and a clone of the iterator outlive the first one.
    let page = reader.read(TWO_LINES);
    let (first, again): (Answers<'_>, Answers<'_>) = (page.iter(), (&page).into_iter().clone());
    assert!(first.eq(again));
    assert_eq!(format!("{page:?}"), format!("{:?}", page.iter().collect::<Vec<_>>()));
}
