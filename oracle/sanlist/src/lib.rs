//! The crate's own chess_move.rs and the leaves it needs, unchanged, over a STAND-IN `Board` that only holds a record and
//! a list, and a STAND-IN `MoveGen` that only walks that list. So the crate's SAN code runs over any record and any list.

#[path = "../../chess/src/chess_move.rs"]
pub mod chess_move;
#[path = "../../chess/src/color.rs"]
pub mod color;
#[path = "../../chess/src/error.rs"]
pub mod error;
#[path = "../../chess/src/file.rs"]
pub mod file;
#[path = "../../chess/src/piece.rs"]
pub mod piece;
#[path = "../../chess/src/rank.rs"]
pub mod rank;
#[path = "../../chess/src/square.rs"]
pub mod square;

use board::Board;
use chess_move::ChessMove;
use error::Error;

pub mod board {
    use crate::chess_move::ChessMove;
    use crate::color::Color;
    use crate::piece::{Piece, ALL_PIECES};
    use crate::square::Square;

    /// STAND-IN: a record, of which SAN looks at the first 65 numbers, and a list of moves.
    pub struct Board {
        pub record: [u8; 68],
        pub moves: Vec<ChessMove>,
    }

    impl Board {
        pub fn new(record: [u8; 68], list: &[u16]) -> Board {
            Board { record, moves: list.iter().map(|n| crate::move_of(*n)).collect() }
        }

        pub fn side_to_move(&self) -> Color {
            if self.record[64] == 0 { Color::White } else { Color::Black }
        }

        pub fn piece_on(&self, square: Square) -> Option<Piece> {
            match self.record[square.to_index()] {
                0 => None,
                code => Some(ALL_PIECES[(code as usize - 1) % 6]),
            }
        }
    }

    /// Only for the test inside chess_move.rs: a pawn on e2 that may go to e3 or e4.
    impl Default for Board {
        fn default() -> Board {
            let mut record = [0; 68];
            record[12] = 1;
            Board::new(record, &[12 + 64 * 20, 12 + 64 * 28])
        }
    }
}

pub mod movegen {
    use crate::board::Board;
    use crate::chess_move::ChessMove;

    /// STAND-IN: walks the board's list.
    pub struct MoveGen<'a>(std::slice::Iter<'a, ChessMove>);

    impl<'a> MoveGen<'a> {
        pub fn new_legal(board: &'a Board) -> MoveGen<'a> {
            MoveGen(board.moves.iter())
        }
    }

    impl<'a> Iterator for MoveGen<'a> {
        type Item = ChessMove;

        fn next(&mut self) -> Option<ChessMove> {
            self.0.next().copied()
        }
    }
}

/// The crate's move of a move number, which is at most 28,671.
pub fn move_of(number: u16) -> ChessMove {
    assert!(number <= 28_671, "{} is no move", number);
    let promotion = match number / 4096 {
        0 => None,
        code => Some(piece::ALL_PIECES[code as usize - 1]),
    };
    let square = |n: u16| square::ALL_SQUARES[n as usize % 64];
    ChessMove::new(square(number), square(number / 64), promotion)
}

pub fn number_of(m: ChessMove) -> u16 {
    let promotion = m.get_promotion().map_or(0, |p| p.to_index() + 1);
    (m.get_source().to_index() + 64 * m.get_dest().to_index() + 4096 * promotion) as u16
}

/// The crate's `from_san`, with numbers for moves.
pub fn read(board: &Board, text: &str) -> Result<u16, Error> {
    ChessMove::from_san(board, text).map(number_of)
}
