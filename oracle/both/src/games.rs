//! Positions of random games.

use crate::random::Random;
use chess::{Board, ChessMove, MoveGen, Piece};
use std::collections::HashSet;
use std::str::FromStr;

/// Where games begin: the initial position, positions known from counting moves, and some where special moves are near.
pub const STARTS: [&str; 18] = [
    "rnbqkbnr/pppppppp/8/8/8/8/PPPPPPPP/RNBQKBNR w KQkq - 0 1",
    "r3k2r/p1ppqpb1/bn2pnp1/3PN3/1p2P3/2N2Q1p/PPPBBPPP/R3K2R w KQkq - 0 1",
    "8/2p5/3p4/KP5r/1R3p1k/8/4P1P1/8 w - - 0 1",
    "r3k2r/Pppp1ppp/1b3nbN/nP6/BBP1P3/q4N2/Pp1P2PP/R2Q1RK1 w kq - 0 1",
    "rnbq1k1r/pp1Pbppp/2p5/8/2B5/8/PPP1NnPP/RNBQK2R w KQ - 0 1",
    "r3k2r/8/8/8/8/8/8/R3K2R w KQkq - 0 1",
    "r3k2r/pppppppp/8/8/8/8/PPPPPPPP/R3K2R b KQkq - 0 1",
    "8/PPPP1PPP/8/1k6/6K1/8/pppp1ppp/8 w - - 0 1",
    "1n1n4/P1P1P1P1/8/1k6/6K1/8/p1p1p1p1/1N1N4 w - - 0 1",
    "4k3/pppppppp/8/PPPPPPPP/pppppppp/8/PPPPPPPP/4K3 w - - 0 1",
    "4k3/1p1p1p1p/8/P1P1P1P1/1p1p1p1p/8/P1P1P1P1/4K3 b - - 0 1",
    "rnbqkb1r/ppp1pppp/5n2/3pP3/8/8/PPPP1PPP/RNBQKBNR w KQkq d6 0 3",
    "8/8/8/2k5/3Pp3/8/8/4K3 b - d3 0 1",
    "8/8/4k3/8/8/4K3/4N2N/1N6 w - - 0 1",
    "4k3/8/8/1N3N2/8/1N3N2/8/R3K2R w KQ - 0 1",
    "q3k2q/8/8/8/8/8/8/Q3K2Q w - - 0 1",
    "r3k2r/1P4P1/8/8/8/8/1p4p1/R3K2R w KQkq - 0 1",
    "7k/8/8/8/8/8/R7/1R5K w - - 0 1",
];

pub fn board_of(fen: &str) -> Board {
    Board::from_str(fen).expect("a sane start")
}

pub fn moves_of(board: &Board) -> Vec<ChessMove> {
    MoveGen::new_legal(board).collect()
}

/// Castling, en passant, promotions and double steps of pawns, which plain chance plays too seldom.
fn special(board: &Board, m: ChessMove) -> bool {
    let (from, to) = (m.get_source(), m.get_dest());
    let files = from.get_file().to_index().abs_diff(to.get_file().to_index());
    let ranks = from.get_rank().to_index().abs_diff(to.get_rank().to_index());
    match board.piece_on(from) {
        Some(Piece::King) => files == 2,
        Some(Piece::Pawn) => m.get_promotion().is_some() || ranks == 2 || files == 1 && board.piece_on(to).is_none(),
        _ => false,
    }
}

/// A random legal move, a special one in every third case if there is any; none if the game has ended.
pub fn random_move(board: &Board, random: &mut Random) -> Option<ChessMove> {
    let moves = moves_of(board);
    if moves.is_empty() {
        return None;
    }
    let rare: Vec<ChessMove> = moves.iter().copied().filter(|m| special(board, *m)).collect();
    let from = if !rare.is_empty() && random.once_in(3) { &rare } else { &moves };
    Some(*random.pick(from))
}

/// The positions of one random game of at most so many moves.
pub fn random_game(most: usize, random: &mut Random) -> Vec<Board> {
    let start = if random.once_in(2) { STARTS[0] } else { *random.pick(&STARTS) };
    let mut boards = vec![board_of(start)];
    while boards.len() <= most {
        let last = boards[boards.len() - 1];
        match random_move(&last, random) {
            Some(m) => boards.push(last.make_move_new(m)),
            None => break,
        }
    }
    boards
}

/// Positions of random games, one after the other without end.
#[derive(Default)]
pub struct Positions(Vec<Board>);

impl Positions {
    pub fn next(&mut self, random: &mut Random) -> Board {
        if self.0.is_empty() {
            self.0 = random_game(150, random);
        }
        self.0.pop().expect("a game has a start")
    }
}

/// So many different positions of random games that still have a legal move.
pub fn different_positions(count: usize, random: &mut Random) -> Vec<Board> {
    let mut known = HashSet::new();
    let mut all = vec![];
    while all.len() < count {
        for board in random_game(120, random) {
            if all.len() < count && !moves_of(&board).is_empty() && known.insert(board) {
                all.push(board);
            }
        }
    }
    all
}
