//! The positions of a game's move text, each played from the one before over the list that a host lends.

use crate::board::Board;
use crate::error::Error;
use crate::lends::{Lends, Lent};
use crate::lent::{self, MAX_FEN, Step};
use crate::moves::Move;
use crate::pgn::MoveText;
use std::fmt;
use std::iter::FusedIterator;

/// A move of a game's main line that was played.
#[derive(Clone, Copy, Debug, PartialEq, Eq, Hash)]
pub struct Played<'a> {
    /// The move's own bytes.
    pub text: &'a [u8],
    /// Where it starts in the move text.
    pub start: usize,
    /// The listed move that it says.
    pub played: Move,
    /// The board after it, as [`Board::after`] gives it.
    pub board: Board,
    key: Key,
}

impl Played<'_> {
    /// The key that the board after the move is filed under, as [`Board::to_fen`] gives it. Nothing is allocated.
    ///
    /// ```
    /// use menkhodur::lent::Record;
    /// use menkhodur::{Board, Error, Lends, Lent, MoveText};
    ///
    /// /// A host that lends the move b1c3 alone.
    /// struct Knight;
    ///
    /// impl Lends for Knight {
    ///     type Error = Error;
    ///
    ///     fn lend(&mut self, _: &Record, _: &[u8], into: &mut Lent) -> Result<(), Error> {
    ///         into.clear();
    ///         into.push(1_153)
    ///     }
    /// }
    ///
    /// let start = Board::from_fen("8/8/8/8/8/8/8/1N6 w - -").unwrap();
    /// let step = MoveText::new("1. Nc3").positions(start, Knight).next().unwrap().unwrap();
    /// assert_eq!(step.key(), "8/8/8/8/8/2N5/8/8 b - - 0 1");
    /// assert_eq!(step.key(), step.board.to_fen());
    /// ```
    #[must_use]
    pub fn key(&self) -> &str {
        self.key.as_str()
    }
}

/// A key in a room of its own; the bytes behind it are 0.
#[derive(Clone, Copy, PartialEq, Eq, Hash)]
struct Key {
    room: [u8; MAX_FEN],
    length: usize,
}

impl Key {
    fn as_str(&self) -> &str {
        // What the archive writes is ASCII, so that none of it is lost here.
        std::str::from_utf8(&self.room[..self.length]).unwrap_or_default()
    }
}

impl fmt::Debug for Key {
    fn fmt(&self, f: &mut fmt::Formatter<'_>) -> fmt::Result {
        fmt::Debug::fmt(self.as_str(), f)
    }
}

/// Why a game's move text goes no further: the first of these from the left.
#[derive(Clone, Copy, Debug, PartialEq, Eq, Hash)]
pub enum Unplayed<E> {
    /// The text or its next move is refused: [`Error::TooDeep`], [`Error::UnknownToken`], [`Error::LeftOpen`] for what is met before the
    /// move, in variations too; [`Error::InvalidSanMoveAt`] for a move that does not name one of the list.
    Refused(Error),
    /// The host has lent no list for a move.
    NotLent {
        /// Where the move starts in the move text.
        start: usize,
        /// How many bytes it has.
        length: usize,
        /// What the host says.
        why: E,
    },
}

impl<E> Unplayed<E> {
    /// The place in the move text: of what is wrong, or where the move starts that is not played.
    ///
    /// ```
    /// use menkhodur::{Error, Unplayed};
    ///
    /// assert_eq!(Unplayed::<()>::Refused(Error::InvalidSanMoveAt { start: 3, length: 2 }).offset(), 3);
    /// assert_eq!(Unplayed::NotLent { start: 3, length: 2, why: "away" }.offset(), 3);
    /// ```
    #[must_use]
    pub fn offset(&self) -> usize {
        match self {
            // Every refusal that comes of a text has its place.
            Unplayed::Refused(error) => error.offset().unwrap_or_default(),
            Unplayed::NotLent { start, .. } => *start,
        }
    }
}

impl<E: fmt::Display> fmt::Display for Unplayed<E> {
    fn fmt(&self, f: &mut fmt::Formatter<'_>) -> fmt::Result {
        match self {
            Unplayed::Refused(error) => error.fmt(f),
            Unplayed::NotLent { start, why, .. } => write!(f, "there is no list of moves, at byte {start}: {why}"),
        }
    }
}

impl<E: std::error::Error + 'static> std::error::Error for Unplayed<E> {
    fn source(&self) -> Option<&(dyn std::error::Error + 'static)> {
        match self {
            Unplayed::Refused(error) => Some(error),
            Unplayed::NotLent { why, .. } => Some(why),
        }
    }
}

impl<'a> MoveText<'a> {
    /// The positions of the main line from a start: each move outside brackets, in text order, is read in the form of the PGN standard over
    /// the list that the host lends for the board before it, and played. The start itself is not among them. If something is refused, the
    /// positions before it come first, then why and where, then nothing more. Whether the text is well formed behind its last move, only
    /// [`MoveText::check`] or going on to the end tells.
    ///
    /// ```
    /// use menkhodur::lent::Record;
    /// use menkhodur::{Board, Error, Lends, Lent, MoveText, Unplayed};
    ///
    /// /// A host for whom pawns alone move, one step, and no man stands in their way.
    /// struct Steps;
    ///
    /// impl Lends for Steps {
    ///     type Error = Error;
    ///
    ///     fn lend(&mut self, record: &Record, _text: &[u8], into: &mut Lent) -> Result<(), Error> {
    ///         into.clear();
    ///         let pawn = if record.numbers[64] == 0 { 1 } else { 7 };
    ///         let pawns = (8..56_u16).filter(|square| record.numbers[usize::from(*square)] == pawn);
    ///         pawns.map(|square| square + 64 * if pawn == 1 { square + 8 } else { square - 8 }).try_for_each(|step| into.push(step))
    ///     }
    /// }
    ///
    /// let mut positions = MoveText::new("1. e3 (1. d3) e6 2. e5").positions(Board::default(), Steps);
    /// let first = positions.next().unwrap().unwrap();
    /// assert_eq!((first.text, first.start, first.played.to_string()), (&b"e3"[..], 3, "e2e3".to_string()));
    /// assert_eq!(first.key(), "rnbqkbnr/pppppppp/8/8/8/4P3/PPPP1PPP/RNBQKBNR b KQkq - 0 1");
    /// let second = positions.next().unwrap().unwrap();
    /// assert_eq!((second.text, second.start, second.board.get_full_moves()), (&b"e6"[..], 14, 2));
    /// assert_eq!(positions.next(), Some(Err(Unplayed::Refused(Error::InvalidSanMoveAt { start: 20, length: 2 }))));
    /// assert_eq!(positions.next(), None);
    /// ```
    pub fn positions<L: Lends>(&self, start: Board, lends: L) -> GamePositions<'a, L> {
        GamePositions { text: self.text, offset: Some(0), board: start, lends, list: Lent::new() }
    }
}

/// The positions of a [`MoveText`]'s main line, as [`MoveText::positions`] gives them. It borrows the text, and keeps one list, which is filled
/// anew for each move.
#[derive(Clone, Debug)]
#[must_use = "an iterator does nothing until it is asked"]
pub struct GamePositions<'a, L> {
    text: &'a [u8],
    /// Where to go on, or that there is nothing more.
    offset: Option<usize>,
    board: Board,
    lends: L,
    list: Lent,
}

impl<'a, L: Lends> GamePositions<'a, L> {
    /// The move that stands in this part of the text.
    fn play(&mut self, start: usize, length: usize) -> Result<Played<'a>, Unplayed<L::Error>> {
        let (text, record) = (&self.text[start..start + length], self.board.record());
        self.lends.lend(record, text, &mut self.list).map_err(|why| Unplayed::NotLent { start, length, why })?;
        let mut room = [0; MAX_FEN];
        let step = lent::game_step(self.text, start as u64, record, self.list.as_slice(), &mut room).map_err(Unplayed::Refused)?;
        // The step begins with a move, so that one is found.
        let Some(Step { played, record, key, .. }) = step else { return Err(Unplayed::Refused(Error::InvalidSanMoveAt { start, length })) };
        // In range, as those of a good log are: it is the record after a move of one that is.
        self.board = Board::of_good_log(record);
        self.offset = Some(start + length);
        Ok(Played { text, start, played: Move::of_list(played), board: self.board, key: Key { room, length: key } })
    }
}

impl<'a, L: Lends> Iterator for GamePositions<'a, L> {
    type Item = Result<Played<'a>, Unplayed<L::Error>>;

    fn next(&mut self) -> Option<Self::Item> {
        let offset = self.offset.take()?;
        // Over no list nothing is played, and the refusal tells which move comes next: a host may lend by its text.
        match lent::game_step(self.text, offset as u64, self.board.record(), &[], &mut []) {
            Ok(None) => None,
            Ok(Some(Step { start, length, .. })) | Err(Error::InvalidSanMoveAt { start, length }) => Some(self.play(start, length)),
            Err(refused) => Some(Err(Unplayed::Refused(refused))),
        }
    }
}

impl<L: Lends> FusedIterator for GamePositions<'_, L> {}
