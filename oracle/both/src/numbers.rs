//! Document 01's numbers for the crate's values.

use crate::abi::{Position, Record, NUMBERS};
use chess::{
    Board, BoardBuilder, CastleRights, ChessMove, Color, GameResult, MoveGen, Piece, ALL_FILES, ALL_PIECES, ALL_SQUARES,
    EMPTY,
};

pub const MOST_MOVE: u16 = 28_671;

pub fn colour_of(color: Color) -> u8 {
    color.to_index() as u8
}

pub fn color_of(colour: u8) -> Color {
    if colour == 0 { Color::White } else { Color::Black }
}

pub fn code_of(piece: Piece, color: Color) -> u8 {
    (piece.to_index() + 1 + 6 * color.to_index()) as u8
}

pub fn man_of(code: u8) -> Option<(Piece, Color)> {
    let index = code.checked_sub(1)? as usize;
    Some((ALL_PIECES[index % 6], color_of((index / 6) as u8)))
}

/// A builder has no counters: the record's are those of a game's beginning.
pub fn record_of(builder: &BoardBuilder) -> Record {
    let mut r = [0; NUMBERS];
    for square in ALL_SQUARES.iter() {
        r[square.to_index()] = builder[*square].map_or(0, |(p, c)| code_of(p, c));
    }
    r[64] = colour_of(builder.get_side_to_move());
    r[65] = builder.get_castle_rights(Color::White).to_index() as u8;
    r[66] = builder.get_castle_rights(Color::Black).to_index() as u8;
    r[67] = builder.get_en_passant().map_or(0, |s| s.get_file().to_index() as u8 + 1);
    Record::of(r)
}

/// The builder of a record in range, without its counters.
pub fn builder_of(record: &Record) -> BoardBuilder {
    let r = &record.numbers;
    let mut builder = BoardBuilder::new();
    for square in ALL_SQUARES.iter() {
        builder[*square] = man_of(r[square.to_index()]);
    }
    builder.side_to_move(color_of(r[64]));
    builder.castle_rights(Color::White, CastleRights::from_index(r[65] as usize));
    builder.castle_rights(Color::Black, CastleRights::from_index(r[66] as usize));
    builder.en_passant((r[67] as usize).checked_sub(1).map(|f| ALL_FILES[f]));
    builder
}

pub fn number_of(m: ChessMove) -> u16 {
    let promotion = m.get_promotion().map_or(0, |p| p.to_index() + 1);
    (m.get_source().to_index() + 64 * m.get_dest().to_index() + 4096 * promotion) as u16
}

/// The crate's move of a move number in range.
pub fn move_of(number: u16) -> ChessMove {
    let promotion = (number as usize / 4096).checked_sub(1).map(|p| ALL_PIECES[p]);
    ChessMove::new(ALL_SQUARES[number as usize % 64], ALL_SQUARES[number as usize / 64 % 64], promotion)
}

pub fn list_of(board: &Board) -> Vec<u16> {
    MoveGen::new_legal(board).map(number_of).collect()
}

/// The position as the crate's `Board` has it: an en passant file without a taker beside the pawn is not kept there.
pub fn position_of(board: &Board) -> Position {
    let in_check = (*board.checkers() != EMPTY) as u8;
    Position { record: record_of(&BoardBuilder::from(board)), in_check, list: list_of(board) }
}

pub fn result_number(result: Option<GameResult>) -> u64 {
    match result {
        None => 0,
        Some(GameResult::WhiteCheckmates) => 1,
        Some(GameResult::WhiteResigns) => 2,
        Some(GameResult::BlackCheckmates) => 3,
        Some(GameResult::BlackResigns) => 4,
        Some(GameResult::Stalemate) => 5,
        Some(GameResult::DrawAccepted) => 6,
        Some(GameResult::DrawDeclared) => 7,
    }
}
