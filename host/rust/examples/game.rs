//! A position, a move by its name, and a log that ends.

use menkhodur::{Board, Color, Error, Log, Move, Position, Square};

fn main() -> Result<(), Error> {
    let board = Board::from_fen("rnbqkbnr/pppppppp/8/8/8/8/PPPPPPPP/RNBQKBNR w KQkq -")?;
    let list = [Move::new(Square::E2, Square::E4, None), Move::new(Square::G1, Square::F3, None)];
    let knight = board.read_san(&list, "Nf3")?;
    let mut log = Log::start(&Position { board, in_check: false, list: &list })?;
    log.play(knight, false, &[Move::new(Square::B8, Square::C6, None)])?;
    log.resign(Color::Black)?;
    println!("{board}\n{knight} is {}, result {:?}", board.name(&list, knight)?, log.result());
    Ok(())
}
