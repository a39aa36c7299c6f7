//! STAND-IN (not the crate's code). Legal moves from the rules of chess, by the tables of magic.rs and the pins and checks that
//! the crate's `Board` keeps. Nothing is remembered from one board to the next: the crate makes a list anew each time too, and
//! times taken with it should show that.
//!
//! Order: by kind (pawn, knight, bishop, rook, queen, king), then source, then destination, then promotion Q N R B;
//! en passant after the other pawn moves, castling after the other king moves.

use crate::bitboard::{BitBoard, EMPTY};
use crate::board::Board;
use crate::chess_move::ChessMove;
use crate::color::Color;
use crate::magic::{
    between, get_bishop_moves, get_king_moves, get_knight_moves, get_pawn_attacks, get_pawn_moves, get_rook_moves, line,
};
use crate::piece::{Piece, NUM_PROMOTION_PIECES, PROMOTION_PIECES};
use crate::square::{Square, ALL_SQUARES};

const OFFICERS: [Piece; 4] = [Piece::Knight, Piece::Bishop, Piece::Rook, Piece::Queen];
/// A side in a game has at most 16 men; two entries more for castling.
const MOST_USUAL: usize = 18;

/// Where the man on a square may go.
struct Source {
    from: Square,
    to: BitBoard,
    promotes: bool,
}

/// A position as the side to move sees it.
struct View<'a> {
    board: &'a Board,
    me: Color,
    mine: BitBoard,
    theirs: BitBoard,
    all: BitBoard,
    king: Square,
}

impl View<'_> {
    fn of(board: &Board) -> View {
        let me = board.side_to_move();
        let (mine, theirs) = (*board.color_combined(me), *board.color_combined(!me));
        View { board, me, mine, theirs, all: *board.combined(), king: board.king_square(me) }
    }

    fn their(&self, kind: Piece) -> BitBoard {
        *self.board.pieces(kind) & self.theirs
    }

    /// Whether an enemy man attacks the square, if `all` is occupied and the man on `taken`, if any, is gone.
    fn attacked(&self, square: Square, all: BitBoard, taken: BitBoard) -> bool {
        let queens = self.their(Piece::Queen);
        let by = (get_knight_moves(square) & self.their(Piece::Knight))
            | (get_king_moves(square) & self.their(Piece::King))
            | get_pawn_attacks(square, self.me, self.their(Piece::Pawn))
            | (get_rook_moves(square, all) & (self.their(Piece::Rook) | queens))
            | (get_bishop_moves(square, all) & (self.their(Piece::Bishop) | queens));
        by & !taken != EMPTY
    }

    /// Squares that answer a check: the checker's and those between. All without a check, none of two.
    fn answers(&self) -> BitBoard {
        let checkers = *self.board.checkers();
        match checkers.popcnt() {
            0 => !EMPTY,
            1 => checkers | between(checkers.to_square(), self.king),
            _ => EMPTY,
        }
    }

    fn reach(&self, kind: Piece, from: Square) -> BitBoard {
        let reach = match kind {
            Piece::Pawn => get_pawn_moves(from, self.me, self.all),
            Piece::Knight => get_knight_moves(from),
            Piece::Bishop => get_bishop_moves(from, self.all),
            Piece::Rook => get_rook_moves(from, self.all),
            Piece::Queen => get_bishop_moves(from, self.all) | get_rook_moves(from, self.all),
            Piece::King => get_king_moves(from),
        };
        reach & !self.mine
    }

    fn plain(&self, kind: Piece, answers: BitBoard, out: &mut Vec<Source>) {
        let last = self.me.to_seventh_rank();
        for from in *self.board.pieces(kind) & self.mine {
            let mut to = self.reach(kind, from) & answers;
            if BitBoard::from_square(from) & *self.board.pinned() != EMPTY {
                to = to & line(from, self.king);
            }
            push(out, from, to, kind == Piece::Pawn && from.get_rank() == last);
        }
    }

    /// The crate's en passant square is the one on which the enemy pawn stands.
    fn en_passant(&self, victim: Square, out: &mut Vec<Source>) {
        let Some(to) = victim.forward(self.me) else { return };
        let (taken, to) = (BitBoard::from_square(victim), BitBoard::from_square(to));
        let beside = get_king_moves(victim) & crate::magic::get_rank(victim.get_rank());
        for from in *self.board.pieces(Piece::Pawn) & self.mine & beside {
            let after = (self.all ^ BitBoard::from_square(from) ^ taken) | to;
            if to & self.all == EMPTY && !self.attacked(self.king, after, taken) {
                push(out, from, to, false);
            }
        }
    }

    fn king_steps(&self, out: &mut Vec<Source>) {
        let without = self.all ^ BitBoard::from_square(self.king);
        let mut to = EMPTY;
        for square in self.reach(Piece::King, self.king) {
            let there = BitBoard::from_square(square);
            if !self.attacked(square, without, there) {
                to = to | there;
            }
        }
        push(out, self.king, to, false);
    }

    fn castling(&self, out: &mut Vec<Source>) {
        let back = self.me.to_my_backrank().to_index() * 8;
        let rights = self.board.castle_rights(self.me);
        if self.king.to_index() != back + 4 || *self.board.checkers() != EMPTY {
            return;
        }
        let set = |files: &[usize]| files.iter().fold(EMPTY, |all, f| all | square_set(back + f));
        let rook = |file: usize| *self.board.pieces(Piece::Rook) & self.mine & square_set(back + file) != EMPTY;
        let empty = |files: &[usize]| self.all & set(files) == EMPTY;
        let calm = |files: &[usize]| files.iter().all(|f| !self.attacked(ALL_SQUARES[back + f], self.all, EMPTY));
        if rights.has_queenside() && rook(0) && empty(&[1, 2, 3]) && calm(&[2, 3]) {
            push(out, self.king, square_set(back + 2), false);
        }
        if rights.has_kingside() && rook(7) && empty(&[5, 6]) && calm(&[5, 6]) {
            push(out, self.king, square_set(back + 6), false);
        }
    }
}

fn square_set(square: usize) -> BitBoard {
    BitBoard::from_square(ALL_SQUARES[square])
}

fn push(out: &mut Vec<Source>, from: Square, to: BitBoard, promotes: bool) {
    if to != EMPTY {
        out.push(Source { from, to, promotes });
    }
}

/// An iterator over the legal moves of a sane board.
pub struct MoveGen {
    sources: Vec<Source>,
    /// Which source is next, and which promotion of its next destination.
    at: usize,
    promotion: usize,
}

impl MoveGen {
    pub fn new_legal(board: &Board) -> MoveGen {
        let view = View::of(board);
        let answers = view.answers();
        let mut sources = Vec::with_capacity(MOST_USUAL);
        view.plain(Piece::Pawn, answers, &mut sources);
        if let Some(victim) = board.en_passant() {
            view.en_passant(victim, &mut sources);
        }
        for kind in OFFICERS.iter() {
            view.plain(*kind, answers, &mut sources);
        }
        view.king_steps(&mut sources);
        view.castling(&mut sources);
        MoveGen { sources, at: 0, promotion: 0 }
    }
}

impl Iterator for MoveGen {
    type Item = ChessMove;

    fn next(&mut self) -> Option<ChessMove> {
        let source = self.sources.get_mut(self.at)?;
        let to = source.to.to_square();
        let kind = if source.promotes { Some(PROMOTION_PIECES[self.promotion]) } else { None };
        self.promotion += 1;
        if !source.promotes || self.promotion == NUM_PROMOTION_PIECES {
            self.promotion = 0;
            source.to ^= BitBoard::from_square(to);
            self.at += (source.to == EMPTY) as usize;
        }
        Some(ChessMove::new(source.from, to, kind))
    }

    fn size_hint(&self) -> (usize, Option<usize>) {
        let count = |s: &Source| s.to.popcnt() as usize * if s.promotes { NUM_PROMOTION_PIECES } else { 1 };
        let left = self.sources[self.at..].iter().map(count).sum::<usize>() - self.promotion;
        (left, Some(left))
    }
}

impl ExactSizeIterator for MoveGen {}
