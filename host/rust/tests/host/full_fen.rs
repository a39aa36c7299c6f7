//! FEN texts with their counters (document 02, order 12), and the crate's pair beside them: a reader and a writer made from the papers' own
//! words judge both.

use crate::common::{Numbers, empty, random_record};
use menkhodur::lent::{self, MAX_FEN, MAX_FULL_FEN, Record};
use menkhodur::{Board, Error};

/// The number of a refusal and its offset.
type Refusal = (u64, usize);

/// "Split at each single space; empty tokens count": each token, with the place where it starts.
fn tokens(text: &[u8]) -> Vec<(usize, &[u8])> {
    let (mut tokens, mut start) = (Vec::new(), 0);
    for token in text.split(|&byte| byte == b' ') {
        tokens.push((start, token));
        start += token.len() + 1;
    }
    tokens
}

/// "Placement begins at a8. `/` goes one rank down and to file a; a digit 1 to 8 adds to the file; a piece letter fills a square and moves
/// one file on. Files and ranks step around modulo 8 [..] Any other byte is refused", here with its place.
fn placed(placement: &[u8]) -> Result<[u8; 64], usize> {
    let (mut squares, mut rank, mut file) = ([0; 64], 7, 0);
    for (place, &byte) in placement.iter().enumerate() {
        match byte {
            b'/' => (rank, file) = ((rank + 7) % 8, 0),
            b'1'..=b'8' => file = (file + usize::from(byte - b'0')) % 8,
            _ => {
                let man = b"PNBRQKpnbrqk".iter().position(|&letter| letter == byte).ok_or(place)?;
                squares[8 * rank + file] = 1 + man as u8;
                file = (file + 1) % 8;
            }
        }
    }
    Ok(squares)
}

/// "18, 19, 20, tested in that order", and what the first four tokens say.
fn numbers_said(text: &[u8]) -> Result<lent::Numbers, Refusal> {
    let tokens = tokens(text);
    let [(_, placement), (side_start, side), (_, rights), (_, passant), ..] = tokens[..] else { return Err((18, text.len())) };
    let squares = placed(placement).map_err(|place| (19, place))?;
    let side = match side {
        b"w" | b"W" => 0,
        b"b" | b"B" => 1,
        _ => return Err((20, side_start)),
    };
    let has = |letter: u8| u8::from(rights.contains(&letter));
    let file = match passant {
        [file @ b'a'..=b'h', b'1'..=b'8', ..] => file - b'a' + 1,
        _ => 0,
    };
    let others = [side, has(b'K') + 2 * has(b'Q'), has(b'k') + 2 * has(b'q'), file];
    Ok([&squares[..], &others].concat().try_into().unwrap())
}

/// "a fifth, then a sixth token that is missing (offset: the text's length), not one to four digits, or a move number of 0, with its start"
fn counter(text: &[u8], index: usize, least: u16) -> Result<u16, Refusal> {
    let (start, digits) = *tokens(text).get(index).ok_or((25, text.len()))?;
    if !(1..=4).contains(&digits.len()) || !digits.iter().all(|byte| (48..=57).contains(byte)) {
        return Err((25, start));
    }
    let number = digits.iter().fold(0, |number, digit| 10 * number + u16::from(digit - 48));
    if number < least { Err((25, start)) } else { Ok(number) }
}

fn record_said(text: &[u8]) -> Result<Record, Refusal> {
    Ok(Record { numbers: numbers_said(text)?, half_moves: counter(text, 4, 0)?, full_moves: counter(text, 5, 1)? })
}

/// Asks both readers, lent and typed, for what the papers say of the text, and gives what they say of it with its counters.
fn check(text: impl AsRef<[u8]>) -> Result<Record, Refusal> {
    let text = text.as_ref();
    let told = |answer: Result<Record, Error>| answer.map_err(|error| (error.number(), error.offset().unwrap()));
    let typed = |answer: Result<Board, Error>| told(answer.map(|board| *board.record()));
    let (full, plain) = (record_said(text), numbers_said(text).map(Record::from));
    let shown = text.escape_ascii();
    assert_eq!((told(lent::fen_read_full(text)), typed(Board::from_fen_full(text))), (full, full), "{shown}");
    assert_eq!((told(lent::fen_read(text)), typed(Board::from_fen(text))), (plain, plain), "{shown}");
    full
}

/// "ranks 8 to 1, empty runs as one digit"
fn placement(squares: &[u8]) -> String {
    let rank = |men: &[u8]| {
        let (mut text, mut run) = (String::new(), 0);
        for &man in men {
            if man == 0 {
                run += 1;
                continue;
            }
            text += &digit(run);
            text.push(char::from(b" PNBRQKpnbrqk"[usize::from(man)]));
            run = 0;
        }
        text + &digit(run)
    };
    squares.chunks_exact(8).rev().map(rank).collect::<Vec<_>>().join("/")
}

fn digit(run: usize) -> String {
    if run == 0 { String::new() } else { run.to_string() }
}

/// "`w` or `b`, white's letters then black's in upper and lower case or one `-`, the en passant square on rank 6 with white to move and rank 3
/// with black"; then the counters in decimal.
fn written(record: &Record, (half, full): (u16, u16)) -> String {
    let (squares, others) = record.numbers.split_at(64);
    let letters = |all: [&'static str; 4], rights: u8| all[usize::from(rights)];
    let rights = format!("{}{}", letters(["", "K", "Q", "KQ"], others[1]), letters(["", "k", "q", "kq"], others[2]));
    let rights = if rights.is_empty() { "-" } else { &rights };
    let rank = if others[0] == 0 { 6 } else { 3 };
    let passant = if others[3] == 0 { "-".to_string() } else { format!("{}{rank}", char::from(b'a' + others[3] - 1)) };
    format!("{} {} {rights} {passant} {half} {full}", placement(squares), ["w", "b"][usize::from(others[0])])
}

/// Asks both writers, in rooms that fit, are longer and are too short, and the readers for what was written.
fn check_written(record: &Record) -> usize {
    let (full, key) = (written(record, (record.half_moves, record.full_moves)), written(record, (0, 1)));
    type Writer = fn(&Record, &mut [u8]) -> Result<usize, Error>;
    for (text, writer) in [(&full, lent::fen_write_full as Writer), (&key, lent::fen_write)] {
        for (length, want) in [(text.len(), true), (text.len() + 7, true), (text.len() - 1, false), (0, false)] {
            let mut room = vec![0xA5; length];
            let answer = if want { Ok(text.len()) } else { Err(Error::OutputTooShort { needed: text.len() }) };
            assert_eq!(writer(record, &mut room), answer, "{text}");
            let (front, rest) = room.split_at(if want { text.len() } else { 0 });
            assert!((front == text.as_bytes() || !want) && rest.iter().all(|&byte| byte == 0xA5), "{text}");
        }
    }
    let board = Board::from_record(record).unwrap();
    assert_eq!((board.to_fen_full(), board.to_fen(), board.to_string()), (full.clone(), key.clone(), key.clone()));
    assert_eq!(format!("{board:?}"), format!("Board({full})"));
    assert_eq!(check(&full), Ok(*record));
    assert_eq!(check(&key), Ok(Record::from(record.numbers)));
    full.len()
}

#[test]
fn the_refusals_come_in_their_order() {
    for (text, want) in [
        ("8 w -", (18, 5)),
        ("9 w - -", (19, 0)),
        ("8 x - -", (20, 2)),
        ("9 x - - x 0", (19, 0)),
        ("8 x - - x 0", (20, 2)),
        ("8 w - -", (25, 7)),
        ("8 w - - ", (25, 8)),
        ("8 w - - x", (25, 8)),
        ("8 w - - x 0", (25, 8)),
        ("8 w - -  1", (25, 8)),
        ("8 w - -  ", (25, 8)),
        ("8 w - - 0", (25, 9)),
        ("8 w - - 0 ", (25, 10)),
        ("8 w - - 0  1", (25, 10)),
        ("8 w - - 0 0", (25, 10)),
        ("8 w - - 9999 x", (25, 13)),
    ] {
        assert_eq!(check(text), Err(want), "{text}");
    }
}

#[test]
fn a_counter_is_one_to_four_digits() {
    let says = |half: &str, full: &str| check(format!("8 w - - {half} {full}"));
    let counted = |half_moves: u16, full_moves: u16| Ok(Record { half_moves, full_moves, ..empty() });
    assert_eq!(says("0001", "0001"), counted(1, 1));
    assert_eq!(says("0000", "1"), counted(0, 1));
    assert_eq!(says("0", "0000"), Err((25, 10)));
    assert_eq!((says("9999", "9999"), says("500", "1")), (counted(9_999, 9_999), counted(500, 1)));
    for wrong in ["00001", "10000", "+1", "-0", "-1", "1.", "1e0", "0x1", "\u{663}", "1\t", "\n", "1\r"] {
        assert_eq!(says(wrong, "1"), Err((25, 8)), "{wrong:?}");
        assert_eq!(says("1", wrong), Err((25, 10)), "{wrong:?}");
    }
    // A line that ends in CR and LF, split at LF: the crate's reader takes it.
    assert_eq!(check("8 w - - 0 1\r"), Err((25, 10)));
    assert_eq!(lent::fen_read(b"8 w - - 0 1\r"), Ok(empty()));
}

#[test]
fn tokens_behind_the_sixth_are_ignored() {
    for tail in ["", " ", "  ", " x", " 0 0", " 5 10 -", " \u{ff}\0"] {
        assert_eq!(check(format!(" b - - 5 10{tail}")).unwrap(), Record { numbers: side(1), half_moves: 5, full_moves: 10 });
    }
}

fn side(side: u8) -> lent::Numbers {
    let mut numbers = [0; 68];
    numbers[64] = side;
    numbers
}

#[test]
fn every_text_of_up_to_four_digits_as_either_counter() {
    for digits in 1..=4_u32 {
        for number in 0..10_u64.pow(digits) {
            let text = format!("{number:0width$}", width = digits as usize);
            let half = check(format!(" w - - {text} 7")).unwrap();
            assert_eq!((u64::from(half.half_moves), half.full_moves), (number, 7));
            let full = check(format!(" w - - 7 {text}"));
            assert_eq!(full.map(|record| u64::from(record.full_moves)), if number == 0 { Err((25, 9)) } else { Ok(number) });
        }
    }
}

#[test]
fn every_byte_in_a_counter() {
    for byte in 0..=255 {
        for (front, back) in [("", ""), ("", "2"), ("2", ""), ("222", ""), ("2222", "")] {
            for (before, behind) in [(" w - - ", " 3"), (" w - - 3 ", ""), (" w - - 3 ", " x")] {
                let _ = check([before.as_bytes(), front.as_bytes(), &[byte], back.as_bytes(), behind.as_bytes()].concat());
            }
        }
    }
}

#[test]
fn every_short_text_behind_the_fourth_token() {
    for length in 0..=7_u32 {
        for number in 0..4_usize.pow(length) {
            let tail: Vec<u8> = (0..length).map(|at| b" 01x"[number / 4_usize.pow(at) % 4]).collect();
            let _ = check([b"8 w - -", &tail[..]].concat());
        }
    }
}

#[test]
fn every_cut_and_every_other_byte() {
    let whole = b"rnbqkbnr/pp1ppppp/8/2p5/4P3/8/PPPP1PPP/RNBQKBNR w KQkq c6 12 340";
    let mut accepted = 0;
    for place in 0..whole.len() {
        let _ = check(&whole[..place]);
        for byte in 0..=255 {
            let mut text = whole.to_vec();
            text[place] = byte;
            accepted += usize::from(check(&text).is_ok());
            text[place] = whole[place];
            text.insert(place, byte);
            accepted += usize::from(check(&text).is_ok());
        }
    }
    assert!(accepted > 1_000, "{accepted}");
}

#[test]
fn written_records_come_back() {
    let mut numbers = Numbers(12);
    for _ in 0..3_000 {
        let record = random_record(&mut numbers);
        assert!((25..=MAX_FULL_FEN).contains(&check_written(&record)));
        check_written(&Record::from(record.numbers));
    }
    for (half_moves, full_moves) in [(0, 1), (9, 9), (10, 10), (99, 99), (100, 100), (999, 999), (1_000, 1_000), (9_999, 9_999), (0, 9_999)]
    {
        check_written(&Record { half_moves, full_moves, ..empty() });
    }
}

#[test]
fn the_shortest_and_the_longest_text() {
    assert_eq!(check_written(&empty()), 25);
    let mut longest = Record { numbers: [12; 68], half_moves: 9_999, full_moves: 9_999 };
    longest.numbers[64..].copy_from_slice(&[1, 3, 3, 8]);
    assert_eq!((check_written(&longest), MAX_FULL_FEN), (91, 91));
    assert_eq!((lent::fen_write(&longest, &mut [0; MAX_FEN]), MAX_FEN), (Ok(85), 85));
}

/// The key names the 68 numbers, and the full text all 70.
#[test]
fn one_key_for_the_same_numbers_and_one_text_for_the_same_record() {
    let mut numbers = Numbers(13);
    let written = |record: &Record| {
        let board = Board::from_record(record).unwrap();
        (board.to_fen(), board.to_fen_full())
    };
    for _ in 0..2_000 {
        let record = random_record(&mut numbers);
        let mut other = record;
        let place = numbers.below(68) as usize;
        let bound = [13, 2, 4, 4, 9][usize::max(place, 63) - 63];
        other.numbers[place] = ((u64::from(record.numbers[place]) + 1 + numbers.below(bound - 1)) % bound) as u8;
        let counted = Record { numbers: record.numbers, ..random_record(&mut numbers) };
        let [(key, full), (other_key, other_full), (counted_key, counted_full)] = [record, other, counted].map(|record| written(&record));
        assert!(other_key != key && other_full != full, "{key}");
        assert_eq!(counted_key, key);
        assert_eq!(counted_full == full, counted == record);
    }
}
