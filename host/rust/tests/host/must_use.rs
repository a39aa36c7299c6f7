//! A step or an answer that is dropped is warned of: the compiler must have something to say at each place below.

#![deny(unfulfilled_lint_expectations)]

use crate::common::{Parts, play};
use menkhodur::{
    Board, CastleRights, Color, Error, Lends, Lent, Move, MoveText, Page, PageReader, Piece, Position, Square, Unplayed, lent,
};

#[test]
fn steps() {
    let (board, rights) = (Board::default(), CastleRights::Both);
    #[expect(unused_must_use)]
    board.piece(Square::E4, Piece::Pawn, Color::White);
    #[expect(unused_must_use)]
    board.clear_square(Square::E2);
    #[expect(unused_must_use)]
    board.side_to_move(Color::Black);
    #[expect(unused_must_use)]
    board.castle_rights(Color::White, CastleRights::NoRights);
    #[expect(unused_must_use)]
    board.en_passant(None);
    #[expect(unused_must_use)]
    board.half_moves(1);
    #[expect(unused_must_use)]
    board.full_moves(2);
    #[expect(unused_must_use)]
    board.after(Move::default());
    #[expect(unused_must_use)]
    board.settled();
    #[expect(unused_must_use)]
    rights.add(CastleRights::KingSide);
    #[expect(unused_must_use)]
    rights.remove(CastleRights::KingSide);
    assert_eq!((board, rights), (Board::default(), CastleRights::Both));
}

#[test]
fn what_a_board_has() {
    let board = Board::default();
    #[expect(unused_must_use)]
    board.to_fen();
    #[expect(unused_must_use)]
    board.to_fen_full();
    #[expect(unused_must_use)]
    Board::settled_key(" w - -");
    #[expect(unused_must_use)]
    board.numbers();
    #[expect(unused_must_use)]
    board.record();
    #[expect(unused_must_use)]
    board.get_half_moves();
    #[expect(unused_must_use)]
    board.get_full_moves();
    #[expect(unused_must_use)]
    board.in_check();
    #[expect(unused_must_use)]
    board.legal_moves();
}

#[test]
fn judgements() -> Result<(), Error> {
    let board = Board::default();
    // What is wrong is told here alone: the question mark must not be the end of it.
    #[expect(unused_must_use)]
    Position { board, in_check: false, list: &[] }.judged()?;
    #[expect(unused_must_use)]
    lent::list_judged(lent::Given { record: board.record(), in_check: 0, list: &[] })?;
    Ok(())
}

#[test]
fn answers() {
    let log = play(Board::default(), "", "", "b1c3");
    #[expect(unused_must_use)]
    log.current_position();
    #[expect(unused_must_use)]
    log.result();
    #[expect(unused_must_use)]
    log.can_declare_draw();
    #[expect(unused_must_use)]
    log.can_claim_by_laws();
    #[expect(unused_must_use)]
    log.ruling();
    #[expect(unused_must_use)]
    log.actions();
    #[expect(unused_must_use)]
    log.positions();
    #[expect(unused_must_use)]
    log.to_roll();
    #[expect(unused_must_use)]
    Error::GameOver.meaning();
    #[expect(unused_must_use)]
    Error::GameOver.offset();

    let mut reader = PageReader::new();
    #[expect(unused_must_use)]
    reader.read(b" w - -\n");
    #[expect(unused_must_use)]
    reader.read(b" w - -\n").iter();
    #[expect(unused_must_use)]
    reader.report(b" w - -\n").unwrap().1.men(Piece::King, Color::White);
}

/// A move that was not added must not be taken for one that was.
#[test]
fn lists() {
    let mut list = Lent::new();
    #[expect(unused_must_use)]
    list.push(0);
    #[expect(unused_must_use)]
    list.as_slice();
    #[expect(unused_must_use)]
    list.moves();
    #[expect(unused_must_use)]
    list.len();
    #[expect(unused_must_use)]
    list.is_empty();
}

#[test]
fn positions_of_a_game() -> Result<(), Error> {
    let (board, list, mut room) = (Board::default(), [1_153], [0; lent::MAX_FEN]);
    #[expect(unused_must_use)]
    MoveText::new("Nc3").positions(board, Keep);
    let mut positions = MoveText::new("Nc3").positions(board, Keep);
    #[expect(unused_must_use)]
    positions.next().unwrap().unwrap().key();
    #[expect(unused_must_use)]
    Unplayed::<()>::Refused(Error::TooDeep { offset: 0 }).offset();
    // The record after the move is given here alone: the question mark must not be the end of it.
    #[expect(unused_must_use)]
    lent::play(b"Nc3", board.record(), &list, &mut room)?;
    #[expect(unused_must_use)]
    lent::game_step(b"Nc3", 0, board.record(), &list, &mut room)?.unwrap();
    Ok(())
}

/// Lends the move b1c3 alone.
struct Keep;

impl Lends for Keep {
    type Error = Error;

    fn lend(&mut self, _: &lent::Record, _: &[u8], into: &mut Lent) -> Result<(), Error> {
        into.clear();
        into.push(1_153)
    }
}

#[test]
fn reports() -> Result<(), Error> {
    let (mut records, mut numbers) = ([[0; 68]], [[0; 2]]);
    // The figures are given here alone: the question mark must not be the end of them.
    #[expect(unused_must_use)]
    lent::fen_report(b" w - -\n", records.as_flattened_mut(), numbers.as_flattened_mut())?;
    #[expect(unused_must_use)]
    PageReader::new().report(b" w - -\n")?;
    #[expect(unused_must_use)]
    Page::report(b" w - -\n", &mut records, &mut numbers)?;
    Ok(())
}

#[test]
fn answers_over_lent_parts() -> Result<(), Error> {
    let log = play(Board::default(), "", "", "b1c3");
    // The counts are the new log: the question mark must not be the end of them.
    let mut parts = Parts::of(&log);
    #[expect(unused_must_use)]
    lent::game_offer_draw(&mut parts.actions, &parts.positions, parts.counts, 0)?;
    // The start of a roll that is read is given here alone.
    #[expect(unused_must_use)]
    lent::roll_read(&log.to_roll(), &mut parts.actions)?;
    #[expect(unused_must_use)]
    lent::roll_read_old(&[0; 69], &mut parts.actions)?;
    Ok(())
}
