//! Every refusal of the calls without a log, with the room that was lent as it was.

use crate::common::{empty, out_of_range};
use menkhodur::lent::{self, Record};
use menkhodur::{Board, Error, Move};

const KNIGHT: &[u8] = b"8/8/8/8/8/8/8/1N6 w - -";

fn record(fen: &[u8]) -> Record {
    lent::fen_read(fen).unwrap()
}

fn bad_records() -> impl Iterator<Item = Record> {
    out_of_range(record(b"rnbqkbnr/pppppppp/8/8/8/8/PPPPPPPP/RNBQKBNR w KQkq -"))
}

/// Asks for a refusal that leaves every byte of the room.
fn refuses_room(want: Error, length: usize, call: impl FnOnce(&mut [u8]) -> Result<usize, Error>) {
    let mut room = vec![0xA5; length];
    assert_eq!(call(&mut room), Err(want));
    assert!(room.iter().all(|&byte| byte == 0xA5), "{want}: a refused call has written");
}

/// Asks for a refusal of each text, with the offset beside it, by both readers and for its settled key, in rooms too short and long enough.
fn refuses_fens(want: impl Fn(usize) -> Error, texts: &[(&[u8], usize)]) {
    for &(text, offset) in texts {
        assert_eq!((lent::fen_read(text), lent::fen_read_full(text)), (Err(want(offset)), Err(want(offset))));
        assert_eq!((Board::from_fen(text), Board::from_fen_full(text)), (Err(want(offset)), Err(want(offset))));
        for length in [0, 24, 85] {
            refuses_room(want(offset), length, |room| lent::fen_settled(text, room));
        }
        assert_eq!(Board::settled_key(text), Err(want(offset)));
        assert_eq!(want(offset).offset(), Some(offset));
    }
}

/// The same of coordinate texts.
fn refuses_moves(want: impl Fn(usize) -> Error, texts: &[(&[u8], usize)]) {
    for &(text, offset) in texts {
        assert_eq!(lent::move_read(text), Err(want(offset)));
        assert_eq!(Move::from_text(text), Err(want(offset)));
        assert_eq!(want(offset).offset(), Some(offset));
    }
}

#[test]
fn number_18_fen_tokens() {
    let texts: [(&[u8], usize); 8] =
        [(b"", 0), (b" ", 1), (b"  ", 2), (b"8/8 w -", 7), (b"x", 1), (b"9 x y", 5), (b"\xff\xff  ", 4), (b"8\tw\t-\t-", 7)];
    refuses_fens(|offset| Error::TooFewTokens { offset }, &texts);
    assert_eq!("8/8 w -".parse::<Board>().unwrap_err().number(), 18);
}

#[test]
fn number_19_fen_placement() {
    let texts: [(&[u8], usize); 8] = [
        (b"8/8/8/8/8/8/8/9 w - -", 14),
        (b"0 w - -", 0),
        (b"9x w - -", 0),
        (b"8x9 w - -", 1),
        (b"x x - -", 0),
        (b"kK\xff  - -", 2),
        (b"rnbqkbnr/pppppppp/8/8/8/8/PPPPPPPP/RNBQKBN\0 w KQkq - 0 1", 42),
        (b"8/8/8/8/8/8/8/8\t w - -", 15),
    ];
    refuses_fens(|offset| Error::BadPlacement { offset }, &texts);
    assert_eq!("9 w - -".parse::<Board>().unwrap_err().number(), 19);
}

#[test]
fn number_20_fen_side() {
    let texts: [(&[u8], usize); 7] =
        [(b"8 x - -", 2), (b"8  w - -", 2), (b" - w -", 1), (b"   w", 1), (b"8 w\r - -", 2), (b"K8/8 ww 9 9", 5), (b"8 \xff - -", 2)];
    refuses_fens(|offset| Error::BadSide { offset }, &texts);
    assert_eq!("8/8/8/8/8/8/8/8  w - -".parse::<Board>().unwrap_err(), Error::BadSide { offset: 16 });
    assert_eq!("8 x - -".parse::<Board>().unwrap_err().number(), 20);
}

#[test]
fn number_25_fen_counters() {
    let texts: [(&[u8], usize); 12] = [
        (b"8 w - -", 7),
        (b"8 w - - ", 8),
        (b"8 w - - x", 8),
        (b"8 w - -  1", 8),
        (b"8 w - - 00000 1", 8),
        (b"8 w - - -0 0", 8),
        (b"8 w - - 0", 9),
        (b"8 w - - 0 ", 10),
        (b"8 w - - 0 0", 10),
        (b"8 w - - 0 0000", 10),
        (b"8 w - - 0 10000", 10),
        (b"8 w - - 0 1\r", 10),
    ];
    for (text, offset) in texts {
        assert_eq!(lent::fen_read_full(text), Err(Error::BadCounter { offset }));
        assert_eq!(Board::from_fen_full(text), Err(Error::BadCounter { offset }));
        assert_eq!(lent::fen_read(text), Ok(empty()), "the crate's reader looks at no counter");
    }
    assert_eq!((Error::BadCounter { offset: 7 }.number(), Error::BadCounter { offset: 7 }.offset()), (25, Some(7)));
}

#[test]
fn number_2_square() {
    let texts: [(&[u8], usize); 12] = [
        (b"z9e4", 0),
        (b"z2e", 0),
        (b"z9z", 0),
        (b"E2e4", 0),
        (b"i1e4q", 0),
        (b"e0e4", 1),
        (b"e9z9k", 1),
        (b"h\xc3\xa9", 1),
        (b"e2z9", 2),
        (b"e2z4k", 2),
        (b"e2e9", 3),
        (b"e2e9 and more", 3),
    ];
    refuses_moves(|offset| Error::InvalidSquare { offset }, &texts);
    assert_eq!("z9e4".parse::<Move>().unwrap_err().number(), 2);
    let told = "the text has something else where a square such as e4 should be, at byte 3 (answer 2)";
    assert_eq!("e2e9".parse::<Move>().unwrap_err().to_string(), told);
}

#[test]
fn number_3_coordinates() {
    let texts: [(&[u8], usize); 10] =
        [(b"", 0), (b"e", 1), (b"z", 1), (b"e2", 2), (b"e2e", 3), (b"e2z", 3), (b"e2e4k", 4), (b"e2e4p", 4), (b"e2e4Q", 4), (b"e2e4 ", 4)];
    refuses_moves(|offset| Error::InvalidUciMove { offset }, &texts);
    assert_eq!("e2e4k".parse::<Move>().unwrap_err().number(), 3);
    assert_eq!("e2e".parse::<Move>().unwrap_err().to_string(), "the text is not a move such as e2e4 or e7e8q, at byte 3 (answer 3)");
}

#[test]
fn number_4_san() {
    let board = Board::from_fen(KNIGHT).unwrap();
    let (list, other) = ([1153], [Move::from_number(1153).unwrap()]);
    for text in [&b""[..], b"N", b"Nc", b"Nc4", b"c3", b"Bc3", b"Nc3x", b"Nxc3", b"Nc3Q", b"O-O", b"\xff"] {
        assert_eq!(lent::san_read(board.record(), &list, text), Err(Error::InvalidSanMove));
        assert_eq!(board.read_san(&other, text), Err(Error::InvalidSanMove));
    }
    assert_eq!(board.read_san(&[other[0], other[0]], "Nc3").unwrap_err().number(), 4);
    assert_eq!(board.read_san(&[], "Nc3"), Err(Error::InvalidSanMove));
}

#[test]
fn number_5_squares_and_rights() {
    let refused = [
        lent::make_square(8, 0),
        lent::make_square(0, 8),
        lent::make_square(255, 255),
        lent::rights_add(4, 0),
        lent::rights_add(0, 4),
        lent::rights_remove(4, 0),
        lent::rights_remove(0, 255),
        lent::square_rights(2, 0),
        lent::square_rights(0, 64),
    ];
    assert_eq!(refused, [Err(Error::OutOfRange); 9]);
}

#[test]
fn number_5_steps() {
    let empty = empty();
    let of_a_number = [
        lent::piece(&empty, 64, 1),
        lent::piece(&empty, 0, 0),
        lent::piece(&empty, 0, 13),
        lent::clear_square(&empty, 64),
        lent::side_to_move(&empty, 2),
        lent::castle_rights(&empty, 2, 0),
        lent::castle_rights(&empty, 0, 4),
        lent::en_passant(&empty, 9),
    ];
    assert_eq!(of_a_number, [Err(Error::OutOfRange); 8]);
    for bad in bad_records() {
        assert_eq!(lent::piece(&bad, 0, 1), Err(Error::OutOfRange));
        assert_eq!(lent::clear_square(&bad, 0), Err(Error::OutOfRange));
        assert_eq!(lent::side_to_move(&bad, 0), Err(Error::OutOfRange));
        assert_eq!(lent::castle_rights(&bad, 0, 0), Err(Error::OutOfRange));
        assert_eq!(lent::en_passant(&bad, 0), Err(Error::OutOfRange));
        assert_eq!(lent::half_moves(&bad, 0), Err(Error::OutOfRange));
        assert_eq!(lent::full_moves(&bad, 1), Err(Error::OutOfRange));
        assert_eq!(lent::board_after(&bad, 28_672), Err(Error::OutOfRange));
        assert_eq!(lent::board_settled(&bad), Err(Error::OutOfRange));
    }
}

#[test]
fn number_5_records() {
    for bad in bad_records() {
        for length in [0, 91] {
            refuses_room(Error::OutOfRange, length, |room| lent::fen_write(&bad, room));
            refuses_room(Error::OutOfRange, length, |room| lent::fen_write_full(&bad, room));
        }
        refuses_room(Error::OutOfRange, 11, |room| lent::san_name(&bad, &[1153], 1153, room));
        refuses_room(Error::OutOfRange, 11, |room| lent::san_name(&bad, &[28_672], 0, room));
        assert_eq!(lent::san_read(&bad, &[28_672], b"Nc3"), Err(Error::OutOfRange));
        assert_eq!(Board::from_record(&bad).unwrap_err().number(), 5);
        // The 68 numbers alone are judged with the counters 0 and 1.
        let counted = (1..=9_999).contains(&bad.full_moves) && bad.half_moves <= 9_999;
        assert_eq!(Board::from_numbers(&bad.numbers).is_err(), counted);
    }
}

#[test]
fn number_6_moves_are_never_cut() {
    for number in [28_672, 65_535, 65_536, 65_536 + 1_804, 70_000, (1 << 32) + 1_804, u64::MAX] {
        refuses_room(Error::ListOutOfRange, 5, |room| lent::move_write(number, room));
        refuses_room(Error::ListOutOfRange, 0, |room| lent::move_write(number, room));
        assert_eq!(Move::from_number(number).unwrap_err().number(), 6);
        assert_eq!(lent::board_after(&empty(), number), Err(Error::ListOutOfRange));
    }
}

#[test]
fn number_6_lists() {
    let knight = record(KNIGHT);
    let long = [1153; 256];
    for list in [&long[..], &[1153, 28_672], &[65_535]] {
        assert_eq!(lent::san_read(&knight, list, b""), Err(Error::ListOutOfRange));
        refuses_room(Error::ListOutOfRange, 11, |room| lent::san_name(&knight, list, 1153, room));
        refuses_room(Error::ListOutOfRange, 0, |room| lent::san_name(&knight, list, 70_000, room));
    }
    let board = Board::from_fen(KNIGHT).unwrap();
    let long = [Move::from_number(1153).unwrap(); 256];
    assert_eq!(board.read_san(&long, "Nc3").unwrap_err().number(), 6);
    assert_eq!(board.name(&long, long[0]).unwrap_err().number(), 6);
    assert_eq!(board.read_san(&long[..255], "Nc3").unwrap_err().number(), 4);
}

#[test]
fn number_7_rooms() {
    let full = record(b"r1b1k2r/p1p1p1p1/1p1p1p1p/P1P1P1P1/1P1P1P1P/p1p1p1p1/1P1P1P1P/R1B1K2R b KQkq e3");
    let needed = lent::fen_write(&full, &mut [0; 85]).unwrap();
    for length in 0..needed {
        refuses_room(Error::OutputTooShort { needed }, length, |room| lent::fen_write(&full, room));
    }
    // The pawns on d4 and f4 are white's, so the file is not in the settled key.
    let (text, settled) = (b"r1b1k2r/p1p1p1p1/1p1p1p1p/P1P1P1P1/1P1P1P1P/p1p1p1p1/1P1P1P1P/R1B1K2R b KQkq e3", needed - 1);
    for length in 0..settled {
        refuses_room(Error::OutputTooShort { needed: settled }, length, |room| lent::fen_settled(text, room));
    }
    let (counted, needed) = (Record { half_moves: 9_999, full_moves: 9_999, ..full }, needed + 6);
    for length in 0..needed {
        refuses_room(Error::OutputTooShort { needed }, length, |room| lent::fen_write_full(&counted, room));
    }
    for (number, needed) in [(1_804, 4), (22_284, 5)] {
        for length in 0..needed {
            refuses_room(Error::OutputTooShort { needed }, length, |room| lent::move_write(number, room));
        }
    }
    let pawn = record(b"8/8/8/4P3/8/8/8/8 w - -");
    let needed = "exd6 e.p.".len();
    for length in 0..needed {
        refuses_room(Error::OutputTooShort { needed }, length, |room| lent::san_name(&pawn, &[2788], 2788, room));
    }
    assert_eq!(Error::OutputTooShort { needed }.number(), 7);
}

/// 13 stands before 7, which tells the number of lines.
#[test]
fn number_13_and_7_reports() {
    let refuses_report = |want: Error, text: &[u8], bytes: usize, told: usize| {
        let (mut records, mut numbers) = (vec![0xA5; bytes], vec![9; told]);
        assert_eq!(lent::fen_report(text, &mut records, &mut numbers), Err(want));
        assert_eq!((records, numbers), (vec![0xA5; bytes], vec![9; told]), "{want}: a refused call has written");
    };
    let lines = [b'\n'; 4_098];
    for (bytes, told) in [(0, 0), (68 * 4_098, 2 * 4_098), (68 * 4_098, 0)] {
        refuses_report(Error::PageTooLong, &lines, bytes, told);
        refuses_report(Error::PageTooLong, &lines[..4_097], bytes, told);
    }
    for (bytes, told) in [(0, 0), (68 * 4_096 - 1, 2 * 4_096), (68 * 4_096, 2 * 4_096 - 1)] {
        refuses_report(Error::PageTooShort { lines: 4_096 }, &lines[..4_096], bytes, told);
    }
    refuses_report(Error::PageTooShort { lines: 1 }, b"K w - -", 67, 2);
    refuses_report(Error::PageTooShort { lines: 1 }, b"K w - -", 68, 1);
    assert_eq!((Error::PageTooLong.number(), Error::PageTooShort { lines: 1 }.number()), (13, 7));
}

#[test]
fn number_8_no_name() {
    let pawn = record(b"8/4P3/8/8/8/8/8/8 w - -");
    refuses_room(Error::NoName, 11, |room| lent::san_name(&pawn, &[3892, 28_468], 28_468, room));
    refuses_room(Error::NoName, 0, |room| lent::san_name(&pawn, &[3892, 28_468], 28_468, room));
    let board = Board::from_fen(KNIGHT).unwrap();
    let twice = [Move::from_number(1153).unwrap(); 2];
    assert_eq!(board.name(&twice, twice[0]).unwrap_err().number(), 8);
}

#[test]
fn number_11_names_are_never_cut() {
    let knight = record(KNIGHT);
    for number in [0, 1154, 28_672, 65_536 + 1153, 70_000, (1 << 32) + 1153, u64::MAX] {
        refuses_room(Error::MoveNotListed, 11, |room| lent::san_name(&knight, &[1153], number, room));
        refuses_room(Error::MoveNotListed, 0, |room| lent::san_name(&knight, &[1153], number, room));
    }
    let board = Board::from_fen(KNIGHT).unwrap();
    assert_eq!(board.name(&[], Move::from_number(1153).unwrap()).unwrap_err().number(), 11);
}
