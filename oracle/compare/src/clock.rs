//! The two counters of a FEN along games of the crate (document 02, order 12): the half-move clock and the move number, counted by the PGN
//! standard's sections 16.1.3.5 and 16.1.3.6 from the crate's boards before and after each move. Our archive is not asked.

use crate::ruling::{captured, pawn_moved};
use both::abi::{Position, Record, LAST_COUNT};
use both::games::board_of;
use both::numbers::position_of;
use chess::{Board, Color};

#[derive(Clone, Copy, PartialEq, Eq, Debug)]
pub struct Counters {
    pub half: u16,
    pub full: u16,
}

/// "stops at 9,999"
fn one_more(count: u16) -> u16 {
    if count < LAST_COUNT { count + 1 } else { LAST_COUNT }
}

impl Counters {
    pub const FIRST: Counters = Counters { half: 0, full: 1 };

    /// Those that a FEN says in its fifth and its sixth token; a text without them has the first ones.
    pub fn said_by(fen: &str) -> Counters {
        let said = |nth: usize| fen.split(' ').nth(nth).map(|token| token.parse().expect("a counter"));
        Counters { half: said(4).unwrap_or(Counters::FIRST.half), full: said(5).unwrap_or(Counters::FIRST.full) }
    }

    pub fn of(record: &Record) -> Counters {
        Counters { half: record.half_moves, full: record.full_moves }
    }

    /// "the count of halfmoves (or ply) since the last pawn advance or capturing move"; the move number "is incremented by one immediately after each move
    /// by Black".
    pub fn after(self, before: &Board, after: &Board) -> Counters {
        let restarts = pawn_moved(before, after) || captured(before, after);
        Counters {
            half: if restarts { 0 } else { one_more(self.half) },
            full: if before.side_to_move() == Color::Black { one_more(self.full) } else { self.full },
        }
    }

    pub fn on(self, record: Record) -> Record {
        Record { half_moves: self.half, full_moves: self.full, ..record }
    }

    /// The crate's position with these counters, as a host gives it to the log.
    pub fn position(self, board: &Board) -> Position {
        let position = position_of(board);
        Position { record: self.on(position.record), ..position }
    }

    /// The FEN's first four tokens with these counters behind them.
    pub fn behind(self, fen: &str) -> String {
        let front: Vec<&str> = fen.split(' ').take(4).collect();
        format!("{} {} {}", front.join(" "), self.half, self.full)
    }
}

/// What stands on the board of a game of the crate, with its counters.
#[derive(Clone, Copy)]
pub struct Walk {
    pub board: Board,
    pub counters: Counters,
}

impl Walk {
    pub fn start(fen: &str) -> Walk {
        Walk { board: board_of(fen), counters: Counters::said_by(fen) }
    }

    /// To what stands there after a legal move; where nothing has moved, it stays as it is.
    pub fn to(&mut self, next: Board) {
        if next != self.board {
            *self = Walk { board: next, counters: self.counters.after(&self.board, &next) };
        }
    }

    pub fn position(&self) -> Position {
        self.counters.position(&self.board)
    }
}

#[cfg(test)]
mod tests {
    use super::*;

    fn counted(start: &str, moves: &str) -> (u16, u16) {
        let mut walk = Walk::start(start);
        for text in moves.split_whitespace() {
            walk.to(walk.board.make_move_new(text.parse().expect("a move")));
        }
        (walk.counters.half, walk.counters.full)
    }

    #[test]
    fn the_standards_own_example() {
        // PGN standard, 16.1.4: the FENs after 1. e4, 1... c5 and 2. Nf3.
        let start = "rnbqkbnr/pppppppp/8/8/8/8/PPPPPPPP/RNBQKBNR w KQkq - 0 1";
        assert_eq!(["", "e2e4", "e2e4 c7c5", "e2e4 c7c5 g1f3"].map(|moves| counted(start, moves)), [(0, 1), (0, 1), (0, 2), (1, 2)]);
    }

    #[test]
    fn captures_pawns_rights_and_the_last_count() {
        let rooks = "r3k2r/8/8/8/8/8/8/R3K2R w KQkq - 7 30";
        assert_eq!(counted(rooks, "e1g1"), (8, 30));
        assert_eq!(counted(rooks, "e1g1 h8h7 a1a8"), (0, 31));
        assert_eq!(counted("8/8/8/2k5/3Pp3/8/8/4K3 b - d3 5 9", "e4d3"), (0, 10));
        assert_eq!(counted("4k3/P7/8/8/8/8/8/4K3 w - - 5 9", "a7a8q e8e7"), (1, 10));
        assert_eq!(counted("4k3/8/8/8/8/8/8/4K3 b - - 9998 9998", "e8e7 e1e2 e7e8"), (9_999, 9_999));
    }
}
