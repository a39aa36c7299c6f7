//! The sixteen rows of document 01's table; FEN texts and coordinate texts are refused as document 02 has it (orders 2 and 3).

use crate::common::moves;
use menkhodur::{Board, Error, Move};

fn key(fen: &str) -> Result<String, Error> {
    Board::from_fen(fen).map(|board| board.to_fen())
}

fn number(text: &str) -> Result<u16, Error> {
    Move::from_text(text).map(Move::number)
}

fn san(fen: &str, list: &[u64], text: &str) -> Result<u16, Error> {
    let list: Vec<Move> = list.iter().map(|&number| Move::from_number(number).unwrap()).collect();
    Board::from_fen(fen).unwrap().read_san(&list, text).map(Move::number)
}

fn name(fen: &str, list: &[u64], number: u64) -> Result<String, Error> {
    let list: Vec<Move> = list.iter().map(|&number| Move::from_number(number).unwrap()).collect();
    Board::from_fen(fen).unwrap().name(&list, Move::from_number(number).unwrap())
}

#[test]
fn fen_rows() {
    assert_eq!(key(" w - -").unwrap(), "8/8/8/8/8/8/8/8 w - - 0 1");
    assert_eq!(key("8/8 w -"), Err(Error::TooFewTokens { offset: 7 }));
    assert_eq!(key("8/8/8/8/8/8/8/9 w - -"), Err(Error::BadPlacement { offset: 14 }));
    assert_eq!(key("8/8/8/8/8/8/8/8 w - e4").unwrap(), "8/8/8/8/8/8/8/8 w - e6 0 1");
    assert_eq!(key("8/8/8/8/8/8/8/8 b - z9").unwrap(), "8/8/8/8/8/8/8/8 b - - 0 1");
}

#[test]
fn coordinate_rows() {
    assert_eq!((number("e2e4q"), number("e2e4qx")), (Ok(22_284), Ok(1_804)));
    assert_eq!(number("e2e4k"), Err(Error::InvalidUciMove { offset: 4 }));
    assert_eq!(number("e2e"), Err(Error::InvalidUciMove { offset: 3 }));
    assert_eq!(number("z9e4"), Err(Error::InvalidSquare { offset: 0 }));
}

#[test]
fn knight_rows() {
    let one = "8/8/8/8/8/8/8/1N6 w - -";
    assert_eq!(san(one, &[1153], "Nc3+?!"), Ok(1153));
    assert_eq!(san(one, &[1153], "Nc3x"), Err(Error::InvalidSanMove));
    let two = "8/8/8/8/8/8/4N3/1N6 w - -";
    assert_eq!(san(two, &[1153, 1164], "Nc3"), Err(Error::InvalidSanMove));
    assert_eq!(san(two, &[1153, 1164], "Nbc3"), Ok(1153));
    assert_eq!(name(two, &[1153, 1164], 1153).unwrap(), "Nbc3");
}

#[test]
fn castling_rows() {
    let rook = "8/8/8/8/8/8/8/4R3 w - -";
    assert_eq!((san(rook, &[388], "O-O"), san(rook, &[388], "O-O+")), (Ok(388), Err(Error::InvalidSanMove)));
    assert_eq!(name(rook, &[388, 388], 388).unwrap(), "O-O");
}

#[test]
fn en_passant_rows() {
    let pawn = "8/8/8/4P3/8/8/8/8 w - -";
    assert_eq!((san(pawn, &[2788], "exd6"), san(pawn, &[2788], "d6")), (Err(Error::InvalidSanMove), Ok(2788)));
    assert_eq!(name(pawn, &[2788], 2788).unwrap(), "exd6 e.p.");
}

#[test]
fn slips_to_rule_out() {
    let taken = "8/8/8/8/8/2p5/4N3/1N6 w - -";
    assert_eq!(san(taken, &[1153, 1164], "Nxc3"), Err(Error::InvalidSanMove));
    assert_eq!(san(taken, &[1153], "Nc3x"), Ok(1153));
    assert_eq!(key("8/8/8/8/8/8/8/8 w Kq -").unwrap(), "8/8/8/8/8/8/8/8 w Kq - 0 1");
    assert_eq!(key(" w k -").unwrap(), "8/8/8/8/8/8/8/8 w k - 0 1");
    assert_eq!(moves("b1c3 e2c3").iter().map(|made| made.number()).collect::<Vec<_>>(), [1153, 1164]);
}
