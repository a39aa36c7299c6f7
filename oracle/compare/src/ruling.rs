//! What the queries of document 02's order 5 owe, counted from the crate's own moves and boards. The Laws' count is taken from
//! the words of article 9.3, by what stands on the boards before and after a move; the reversible count and the run from the
//! words of document 01, by the move's squares. Our log is not looked at.

use both::abi::{Position, Ruling};
use both::numbers::position_of;
use chess::{Action, Board, ChessMove, Color, Game, Piece, ALL_COLORS};

/// Both fifty-move counts are of single moves of either side.
const FIFTY_MOVES_OF_EACH: usize = 100;

/// What stood on the board after each number of moves, and the crate's list there.
#[derive(Default)]
pub struct Course {
    boards: Vec<Board>,
    positions: Vec<Position>,
}

impl Course {
    pub fn start(&mut self, board: Board) {
        self.boards.clear();
        self.positions.clear();
        self.add(board);
    }

    pub fn add(&mut self, board: Board) {
        self.boards.push(board);
        self.positions.push(position_of(&board));
    }

    /// Article 9.3: the moves of either side since a pawn was moved or a man captured. Rights do not come into it.
    pub fn laws_count(&self) -> usize {
        let steps = self.boards.windows(2).rev();
        steps.take_while(|step| !pawn_moved(&step[0], &step[1]) && !captured(&step[0], &step[1])).count()
    }

    /// Document 01: the reversible count, and the run as numbers of positions.
    fn count_and_run(&self, moves: &[ChessMove]) -> (usize, Vec<usize>) {
        let (mut count, mut run) = (0, vec![0]);
        for (i, m) in moves.iter().enumerate() {
            let (before, after) = (&self.boards[i], &self.boards[i + 1]);
            if before.piece_on(m.get_source()) == Some(Piece::Pawn) || before.piece_on(m.get_dest()).is_some() {
                count = 0;
                run.clear();
            } else {
                count += 1;
            }
            if rights_of(before) != rights_of(after) {
                count = 0;
                run.clear();
            }
            run.push(i + 1);
        }
        (count, run)
    }

    /// The positions of the run before its last that have the last one's record, and its list in order. The crate's boards have no counters, so
    /// these do not come into it (order 12).
    fn equal(&self, run: &[usize]) -> Vec<usize> {
        let (last, earlier) = run.split_last().expect("the position on the board is in the run");
        let place = |i: usize| (&self.positions[i].record, &self.positions[i].list);
        earlier.iter().copied().filter(|i| place(*i) == place(*last)).collect()
    }

    /// All that is owed of a game whose boards these are.
    pub fn owed(&self, game: &Game) -> Ruling {
        let moves = moves_of(game);
        assert_eq!(moves.len() + 1, self.boards.len(), "a board after each move");
        let (count, run) = self.count_and_run(&moves);
        let (laws_count, equal) = (self.laws_count(), self.equal(&run));
        let by = |count: usize| match (game.result(), count >= FIFTY_MOVES_OF_EACH, equal.len() >= 2) {
            (Some(_), _, _) | (None, false, false) => 0,
            (None, true, false) => 1,
            (None, false, true) => 2,
            (None, true, true) => 3,
        };
        let place = |nth: usize| equal.get(nth).map_or(0, |i| *i as u64);
        Ruling {
            number: 0,
            count: count as u64,
            laws_count: laws_count as u64,
            equals: equal.len() as u64,
            first: place(0),
            second: place(1),
            claim: by(count),
            laws_claim: by(laws_count),
        }
    }
}

fn moves_of(game: &Game) -> Vec<ChessMove> {
    let made = |action: &Action| match action {
        Action::MakeMove(m) => Some(*m),
        _ => None,
    };
    game.actions().iter().filter_map(made).collect()
}

/// Whether the pawns of the side that moved stand otherwise; a promoted one is gone from them.
pub fn pawn_moved(before: &Board, after: &Board) -> bool {
    let mover = before.side_to_move();
    let pawns = |board: &Board| *board.pieces(Piece::Pawn) & *board.color_combined(mover);
    pawns(before) != pawns(after)
}

/// Whether the other side has a man less.
pub fn captured(before: &Board, after: &Board) -> bool {
    let other = !before.side_to_move();
    let men = |board: &Board| board.color_combined(other).popcnt();
    men(before) != men(after)
}

pub fn rights_of(board: &Board) -> [usize; 2] {
    ALL_COLORS.map(|color: Color| board.castle_rights(color).to_index())
}

#[cfg(test)]
mod tests {
    use super::*;
    use both::games::board_of;

    fn owed(start: &str, moves: &str) -> Ruling {
        let (mut board, mut course) = (board_of(start), Course::default());
        let mut game = Game::new_with_board(board);
        course.start(board);
        for text in moves.split_whitespace() {
            let m: ChessMove = text.parse().expect("a move");
            assert!(game.make_move(m), "{}", text);
            board = board.make_move_new(m);
            course.add(board);
        }
        course.owed(&game)
    }

    fn counts(start: &str, moves: &str) -> (u64, u64) {
        let ruling = owed(start, moves);
        (ruling.count, ruling.laws_count)
    }

    #[test]
    fn counts_part_only_by_rights() {
        let rooks = "r3k2r/8/8/8/8/8/8/R3K2R w KQkq - 0 1";
        assert_eq!(counts(rooks, ""), (0, 0));
        assert_eq!(counts(rooks, "h1g1"), (0, 1));
        assert_eq!(counts(rooks, "h1g1 h8g8 g1h1"), (1, 3));
        assert_eq!(counts(rooks, "e1g1 e8c8 g1g2"), (1, 3));
        assert_eq!(counts(rooks, "h1g1 h8g8 g1g8"), (0, 0));
        let pawns = "4k3/P7/8/8/4p3/8/3P4/4K3 w - - 0 1";
        for moves in ["d2d4", "e1e2 e8e7 d2d4 e4d3", "e1e2 e8e7 a7a8q"] {
            assert_eq!(counts(pawns, moves), (0, 0), "{}", moves);
        }
        assert_eq!(counts(pawns, "d2d4 e8e7 e1e2"), (2, 2));
    }

    #[test]
    fn tells_the_two_earliest() {
        let (start, round) = ("1n2k3/8/8/8/8/8/8/1N2K3 w - - 0 1", "b1c3 b8c6 c3b1 c6b8 ");
        let of = |times: usize| {
            let r = owed(start, &round.repeat(times));
            (r.equals, r.first, r.second, r.claim, r.laws_claim)
        };
        assert_eq!([0, 1, 2, 4].map(of), [(0, 0, 0, 0, 0), (1, 0, 0, 0, 0), (2, 0, 4, 2, 2), (4, 0, 4, 2, 2)]);
        assert_eq!(of(25), (25, 0, 4, 3, 3));
    }
}
