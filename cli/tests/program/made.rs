//! Logs made here, move by move, by the archive's calls over lists of legal moves.

use menkhodur::{Board, Lent, Log, Move, Piece, Position};

/// A log in the making.
pub struct Made {
    pub log: Log,
    list: Lent,
    /// How often a man has come to each square.
    visits: [usize; 64],
}

impl Made {
    pub fn start(fen: &str) -> Made {
        let (board, mut list) = (Board::from_fen_full(fen).unwrap(), Lent::new());
        menkhodur_moves::legal(board.record(), &mut list).unwrap();
        let in_check = menkhodur_moves::in_check(board.record());
        let log = Log::start(&Position { board, in_check, list: list.moves() }).unwrap();
        Made { log, list, visits: [0; 64] }
    }

    /// Plays moves, in coordinates with blanks between them.
    pub fn play(&mut self, moves: &str) -> &mut Made {
        moves.split(' ').for_each(|text| self.make(Move::from_text(text).unwrap()));
        self
    }

    fn make(&mut self, made: Move) {
        let after = self.log.current_position().after(made);
        menkhodur_moves::legal(after.record(), &mut self.list).unwrap();
        self.log.play(made, menkhodur_moves::in_check(after.record()), self.list.moves()).unwrap();
        self.visits[made.get_dest().to_index()] += 1;
    }

    /// Plays so many moves of the side's knight or king, which stays on the ranks from `least` to `most` and goes where it has been least.
    pub fn wander(&mut self, man: Piece, (least, most): (usize, usize)) {
        let board = self.log.current_position();
        let stays = |made: &&Move| (least..=most).contains(&(made.get_dest().get_rank().to_index() + 1));
        let quiet = |made: &&Move| board.piece_on(made.get_source()) == Some(man) && board.piece_on(made.get_dest()).is_none();
        let moves = self.log.current_moves().iter().filter(quiet).filter(stays);
        let made = *moves.min_by_key(|made| (self.visits[made.get_dest().to_index()], made.number())).unwrap();
        self.make(made);
    }

    pub fn parts(&self) -> (&[u8], &[u8]) {
        (self.log.used_actions(), self.log.used_positions())
    }
}
