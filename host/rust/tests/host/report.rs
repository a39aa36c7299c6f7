//! The evening report over a page of FEN texts: order 14 of document 02. What a line says comes from pages.txt, of which the crate was asked, or
//! from the record that the line was written from; the figures are counted here, square by square and each line against all before it.

use crate::common::{Numbers, random_record};
use crate::pages::{Line, vectors};
use menkhodur::lent::{self, KINDS, PAGE_NUMBERS, PAGE_RECORD, REPORT_LINES};
use menkhodur::{ALL_COLORS, ALL_PIECES, Error, Page, PageReader, Report};

/// What is owed for these lines.
fn owed(lines: &[Line]) -> lent::Report {
    let taken: Vec<&lent::Numbers> = lines.iter().filter(|line| line.told[0] == 0).map(|line| &line.record).collect();
    let with = |code: usize| taken.iter().flat_map(|record| &record[..64]).filter(|&&man| usize::from(man) == code).count() as u64;
    let repeats = (0..taken.len()).filter(|&at| taken[..at].contains(&taken[at])).count();
    lent::Report {
        lines: lines.len() as u64,
        accepted: taken.len() as u64,
        refused: (lines.len() - taken.len()) as u64,
        men: std::array::from_fn(|kind| with(kind + 1)),
        repeated: repeats as u64,
    }
}

fn text(lines: &[Line]) -> Vec<u8> {
    lines.iter().flat_map(|line| &line.text).copied().collect()
}

/// The call in rooms of so many bytes and so many numbers, full of noise: its answer, and all of both rooms.
fn is_answered(lines: &[Line], [bytes, told]: [usize; 2]) {
    let (mut records, mut numbers) = (vec![0xA5; bytes], vec![0xA5A5; told]);
    let (mut want_records, mut want_numbers) = (records.clone(), numbers.clone());
    let fits = bytes >= PAGE_RECORD * lines.len() && told >= PAGE_NUMBERS * lines.len();
    for (at, line) in lines.iter().enumerate().filter(|_| fits) {
        want_records[PAGE_RECORD * at..][..PAGE_RECORD].copy_from_slice(&line.record);
        want_numbers[PAGE_NUMBERS * at..][..PAGE_NUMBERS].copy_from_slice(&line.told);
    }
    let want = if fits { Ok(owed(lines)) } else { Err(Error::PageTooShort { lines: lines.len() }) };
    assert_eq!(lent::fen_report(&text(lines), &mut records, &mut numbers), want);
    assert!(records == want_records && numbers == want_numbers, "the rooms of {bytes} bytes and {told} numbers");
}

/// In rooms that fit, are longer and are short by one or by a line.
fn is_reported(lines: &[Line]) {
    let [bytes, told] = [PAGE_RECORD, PAGE_NUMBERS].map(|size| size * lines.len());
    for rooms in [[bytes, told], [bytes + 1, told], [bytes, told + 1], [bytes + 68, told + 2]] {
        is_answered(lines, rooms);
    }
    if !lines.is_empty() {
        for rooms in [[bytes - 1, told], [bytes, told - 1], [bytes - 68, told + 2], [bytes + 68, told - 2], [0, 0]] {
            is_answered(lines, rooms);
        }
    }
}

/// Every line of every page, each ended by a newline: the pages' own unended last lines too.
fn all_lines() -> Vec<Line> {
    let mut lines: Vec<Line> = vectors().into_iter().flat_map(|vector| vector.lines).collect();
    for line in lines.iter_mut().filter(|line| !line.text.ends_with(b"\n")) {
        line.text.push(b'\n');
    }
    lines
}

#[test]
fn every_page_of_which_the_crate_was_asked() {
    for vector in vectors() {
        is_reported(&vector.lines);
    }
}

#[test]
fn all_pages_as_one_in_any_order() {
    let (mut lines, mut numbers) = (all_lines(), Numbers(20_261_120));
    let whole = owed(&lines);
    assert!(whole.lines > 1_000 && whole.accepted > 300 && whole.refused > 300 && whole.repeated > 100, "{whole:?}");
    assert!(whole.men.iter().all(|&men| men > 100), "{whole:?}");
    is_reported(&lines);
    for _ in 0..20 {
        for at in (1..lines.len()).rev() {
            lines.swap(at, numbers.below(at as u64 + 1) as usize);
        }
        assert_eq!(owed(&lines), whole);
        is_answered(&lines, [PAGE_RECORD * lines.len(), PAGE_NUMBERS * lines.len()]);
    }
}

/// By hand: the lines, those accepted, the men of some kinds and the repeats.
fn is_row(text: &str, lines: u64, accepted: u64, men: &[(usize, u64)], repeated: u64) {
    let mut want = lent::Report { lines, accepted, refused: lines - accepted, men: [0; KINDS], repeated };
    for &(code, count) in men {
        want.men[code - 1] = count;
    }
    let (mut records, mut numbers) = ([0; 4 * PAGE_RECORD], [0; 4 * PAGE_NUMBERS]);
    assert_eq!(lent::fen_report(text.as_bytes(), &mut records, &mut numbers), Ok(want), "{text:?}");
}

#[test]
fn reports_at_smallest() {
    let each: Vec<(usize, u64)> = (1..=12).map(|code| (code, 1)).collect();
    is_row("", 0, 0, &[], 0);
    is_row("\n", 1, 0, &[], 0);
    is_row("PNBRQK/pnbrqk w - -", 1, 1, &each, 0);
    is_row("PP/P w - -", 1, 1, &[(1, 3)], 0);
    is_row("kk w - -\n", 1, 1, &[(12, 2)], 0);
    is_row("PN w - -\nP b - -", 2, 2, &[(1, 2), (2, 1)], 0);
    is_row("PN x - -\nP b - -", 2, 1, &[(1, 1)], 0);
    is_row("K w - -\nK w - -\nK w - -\n", 3, 3, &[(6, 3)], 2);
    is_row("K w - - 0 1\nK W - e9 5 9\n", 2, 2, &[(6, 2)], 1);
    is_row(" w - -\n b - -\n w - -\n", 3, 3, &[], 1);
    is_row(" w - -\n b - -\n w K -\n w k -\n", 4, 4, &[], 0);
    is_row(" w - a6\n w - h6\n w - -\n w - a3", 4, 4, &[], 1);
}

/// ` w - -` is accepted and has 68 zeros, as a refused line has: neither repeats the other.
#[test]
fn zeros_of_a_refused_line_are_no_record() {
    for refused in ["", "x", "9 w - -", "K x - -", " w -"] {
        is_row(&format!("{refused}\n w - -\n"), 2, 1, &[], 0);
        is_row(&format!(" w - -\n{refused}\n"), 2, 1, &[], 0);
        is_row(&format!("{refused}\n w - -\n{refused}\n w - - 5 9\n"), 4, 2, &[], 1);
        is_row(&format!("{refused}\n{refused}\n"), 2, 0, &[], 0);
    }
}

/// A line that says these numbers in one of many ways.
fn spelt(record: lent::Numbers, numbers: &mut Numbers) -> Line {
    let mut key = [0; lent::MAX_FEN];
    let length = lent::fen_write(&record.into(), &mut key).unwrap();
    let words: Vec<String> = String::from_utf8(key[..length].to_vec()).unwrap().split(' ').map(String::from).collect();
    let [placement, side, rights, file, _, _] = &words[..] else { panic!("{words:?}") };
    let side = if numbers.below(2) == 0 { side.to_uppercase() } else { side.clone() };
    let rights = if numbers.below(2) == 0 { rights.chars().rev().collect() } else { rights.clone() };
    let file = if numbers.below(2) == 0 { file.replace(['3', '6'], "4") } else { file.clone() };
    let tail = ["", " 0 1", " 7 99", " 9999 9999", " x", " 10000 0 more", "  "][numbers.below(7) as usize];
    Line { text: format!("{placement} {side} {rights} {file}{tail}\n").into_bytes(), record, told: [0, 0] }
}

fn refused(numbers: &mut Numbers) -> Line {
    let (text, number, offset) = [("", 18, 0), ("8/8 w -", 18, 7), ("9 w - -", 19, 0), ("K x - -", 20, 2)][numbers.below(4) as usize];
    Line { text: format!("{text}\n").into_bytes(), record: [0; 68], told: [number, offset] }
}

/// Lines of a few records that differ in one number, or not at all, and refused ones in between.
#[test]
fn repeats_of_every_kind() {
    let mut numbers = Numbers(20_261_121);
    for round in 0..300 {
        let first = random_record(&mut numbers).numbers;
        let known: Vec<lent::Numbers> = (0..1 + round % 5)
            .map(|_| {
                let mut record = first;
                let at = numbers.below(68) as usize;
                record[at] = random_record(&mut numbers).numbers[at];
                record
            })
            .chain([[0; 68]])
            .collect();
        let count = numbers.below(30);
        let any = |numbers: &mut Numbers| match numbers.below(4) {
            0 => refused(numbers),
            _ => spelt(known[numbers.below(known.len() as u64) as usize], numbers),
        };
        let mut lines: Vec<Line> = (0..count).map(|_| any(&mut numbers)).collect();
        if let Some(last) = lines.last_mut().filter(|last| round % 2 == 0 && last.text.len() > 1) {
            last.text.pop();
        }
        is_reported(&lines);
    }
}

/// As many lines as a report takes, different, equal, empty, ended or not; and one more, which is refused before the rooms are looked at.
#[test]
fn the_most_lines() {
    let mut numbers = Numbers(20_261_122);
    let different: Vec<Line> = (0..REPORT_LINES).map(|_| spelt(random_record(&mut numbers).numbers, &mut numbers)).collect();
    let equal = vec![different[0].clone(); REPORT_LINES];
    let twice = different.iter().chain(&different).take(REPORT_LINES + REPORT_LINES / 2).skip(REPORT_LINES / 2).cloned().collect();
    let empty = vec![Line { text: b"\n".to_vec(), record: [0; 68], told: [18, 0] }; REPORT_LINES];
    // 262,144 of one kind, the most that there can be.
    let kings = std::array::from_fn(|at| if at < 64 { 12 } else { 0 });
    let full = (0..REPORT_LINES).map(|_| spelt(kings, &mut numbers)).collect();
    for mut lines in [different, equal, twice, empty, full] {
        let rooms = [PAGE_RECORD, PAGE_NUMBERS].map(|size| size * lines.len());
        is_answered(&lines, rooms);
        is_answered(&lines, [rooms[0], rooms[1] - 1]);
        let whole = text(&lines);
        for more in [&b"\n"[..], b"x", b" w - -", b" w - -\n"] {
            is_too_long(&[&whole, more].concat());
        }
        lines.last_mut().unwrap().text.pop();
        if !lines.last().unwrap().text.is_empty() {
            is_answered(&lines, rooms);
        }
    }
    is_too_long(&[b'\n'; 70_000]);
}

fn is_too_long(text: &[u8]) {
    for lines in [0, REPORT_LINES, REPORT_LINES + 1] {
        let (mut records, mut numbers) = (vec![0xA5; PAGE_RECORD * lines], vec![9; PAGE_NUMBERS * lines]);
        assert_eq!(lent::fen_report(text, &mut records, &mut numbers), Err(Error::PageTooLong));
        assert!(records.iter().all(|&byte| byte == 0xA5) && numbers.iter().all(|&number| number == 9));
    }
}

/// The figures in types are the same, and the page beside them is the one that is read without a report.
fn is_typed(lines: &[Line], page: &Page<'_>, report: &Report) {
    let want = owed(lines);
    let counts = [report.lines, report.accepted, report.refused, report.repeated].map(|figure| figure as u64);
    assert_eq!(counts, [want.lines, want.accepted, want.refused, want.repeated]);
    let kinds = ALL_COLORS.iter().flat_map(|&color| ALL_PIECES.map(|piece| report.men(piece, color) as u64));
    assert!(kinds.eq(want.men), "{report:?}");
    let text = text(lines);
    let mut reader = PageReader::new();
    let plain = reader.read(&text);
    assert_eq!((page.text(), page.records(), page.numbers()), (plain.text(), plain.records(), plain.numbers()));
    assert!(page.iter().eq(plain.iter()));
    assert_eq!(page.iter().filter(|(_, board)| board.is_ok()).count(), report.accepted);
}

#[test]
fn what_the_types_make_of_it() {
    let (mut reader, mut records, mut numbers) = (PageReader::new(), [[0xA5; 68]; 1_500], [[9; PAGE_NUMBERS]; 1_500]);
    let pages = vectors().into_iter().map(|vector| vector.lines).chain([all_lines()]);
    for lines in pages {
        let text = text(&lines);
        let (page, report) = reader.report(&text).unwrap();
        is_typed(&lines, &page, &report);
        let (page, report) = Page::report(&text, &mut records, &mut numbers).unwrap();
        is_typed(&lines, &page, &report);
    }
}

#[test]
fn a_reader_that_was_refused_a_report_goes_on() {
    let mut reader = PageReader::for_lines(1);
    assert_eq!(reader.report(&[b'\n'; REPORT_LINES + 1]).unwrap_err(), Error::PageTooLong);
    let (page, report) = reader.report(b"K w - -\nK w - -\n9").unwrap();
    assert_eq!((page.len(), report.accepted, report.repeated), (3, 2, 1));
    assert_eq!(reader.read(&[b'\n'; REPORT_LINES + 1]).len(), REPORT_LINES + 1);
    let (page, report) = reader.report(&[b'\n'; REPORT_LINES]).unwrap();
    assert_eq!((page.len(), report.lines, report.refused), (REPORT_LINES, REPORT_LINES, REPORT_LINES));
}

#[test]
fn rooms_of_the_callers() {
    let (mut records, mut numbers) = ([[0xA5; 68]; 3], [[9; 2]; 4]);
    let (page, report) = Page::report(b"8/8 w -\nK b - e3", &mut records, &mut numbers).unwrap();
    assert_eq!((page.len(), report.lines, report.accepted, report.refused), (2, 2, 1, 1));
    assert_eq!((records[2], numbers[2], numbers[3]), ([0xA5; 68], [9; 2], [9; 2]));
    let (kept, told) = (records, numbers);
    for (most_records, most_numbers) in [(1, 4), (3, 1), (0, 0)] {
        let refused = Page::report(b"8\n8", &mut records[..most_records], &mut numbers[..most_numbers]).unwrap_err();
        assert_eq!((refused, refused.number(), refused.offset()), (Error::PageTooShort { lines: 2 }, 7, None));
    }
    let refused = Page::report(&[b'\n'; 4_097], &mut records, &mut numbers).unwrap_err();
    assert_eq!((refused, refused.number(), refused.offset()), (Error::PageTooLong, 13, None));
    assert_eq!((records, numbers), (kept, told));
    assert_eq!(Page::report(b"", &mut [], &mut []).unwrap().1.lines, 0);
}
