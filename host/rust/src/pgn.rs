//! PGN move text: its moves one by one, as parts of the text.

use crate::error::Error;
use crate::lent::{self, MovePart};
use std::iter::FusedIterator;

/// The move text of a PGN game (document 02, order 8): move numbers, moves, comments, `$` and digits, results, and variations in brackets, down
/// to 8 levels. Tag pairs are no part of it.
///
/// What a move says is not asked: [`Board::read_san_standard`](crate::Board::read_san_standard) reads it.
///
/// ```
/// use menkhodur::{Error, MoveText};
///
/// let text = MoveText::new("1. e4 {best} (1. d4 d5) e5 1-0");
/// assert_eq!(text.check(), Ok(4));
/// let moves: Result<Vec<_>, Error> = text.moves().map(|m| m.map(|m| (m.text, m.level))).collect();
/// assert_eq!(moves.unwrap(), [(&b"e4"[..], 0), (b"d4", 1), (b"d5", 1), (b"e5", 0)]);
/// ```
#[derive(Clone, Copy, Debug, PartialEq, Eq, Hash)]
pub struct MoveText<'a> {
    pub(crate) text: &'a [u8],
}

/// A move, as the very part of the text that holds it.
#[derive(Clone, Copy, Debug, PartialEq, Eq, Hash)]
pub struct PgnMove<'a> {
    /// The move's own bytes: it starts with a to h, N, B, R, Q, K or O and is as long as can be.
    pub text: &'a [u8],
    /// Where it starts in the move text.
    pub start: usize,
    /// 0 outside brackets, 1 to 8 inside.
    pub level: u64,
    /// How many brackets are closed between the move before and this one. One that opens and closes again in between is not counted.
    pub closed: usize,
    /// How many are then opened. `e4 (d4 d5) (c4 e5) e5` and `e4 (d4 d5 c4 e5) e5` have the same moves at the same levels and differ here.
    pub opened: usize,
}

impl<'a> MoveText<'a> {
    /// The move text of these bytes, which need not be well formed: each call says what it meets.
    #[must_use]
    pub fn new<T: AsRef<[u8]> + ?Sized>(text: &'a T) -> MoveText<'a> {
        MoveText { text: text.as_ref() }
    }

    /// Checks the whole text and counts its moves, those of variations among them. Refused, the first from the left:
    /// [`Error::TooDeep`], [`Error::UnknownToken`]; and at the end [`Error::LeftOpen`].
    ///
    /// ```
    /// use menkhodur::{Error, MoveText};
    ///
    /// assert_eq!(MoveText::new("1. e4 e5 (").check(), Err(Error::LeftOpen { offset: 9 }));
    /// ```
    pub fn check(&self) -> Result<u64, Error> {
        lent::pgn_check(self.text)
    }

    /// The moves, in text order. If the text is refused, the moves before what is wrong come first, then the error, then nothing more.
    ///
    /// ```
    /// use menkhodur::{Error, MoveText};
    ///
    /// let mut moves = MoveText::new("e4 % e5").moves();
    /// assert_eq!(moves.next().unwrap().unwrap().text, b"e4");
    /// assert_eq!(moves.next(), Some(Err(Error::UnknownToken { offset: 3 })));
    /// assert_eq!(moves.next(), None);
    /// ```
    pub fn moves(&self) -> Moves<'a> {
        Moves { text: self.text, place: Some((0, 0)) }
    }

    /// The moves from a place on, an offset and a level, as if the text began there at that level.
    ///
    /// ```
    /// use menkhodur::MoveText;
    ///
    /// let text = MoveText::new("e4 (d4 d5) e5");
    /// let levels: Vec<u64> = text.moves_from(6, 1).map(|m| m.unwrap().level).collect();
    /// assert_eq!(levels, [1, 0]);
    /// ```
    pub fn moves_from(&self, offset: usize, level: u64) -> Moves<'a> {
        Moves { text: self.text, place: Some((offset, level)) }
    }
}

/// The moves of a [`MoveText`], each the next one from the end of the one before, at its level. It borrows the text and nothing else.
#[derive(Clone, Debug)]
#[must_use = "an iterator does nothing until it is asked"]
pub struct Moves<'a> {
    text: &'a [u8],
    /// Where to go on, or that there is nothing more.
    place: Option<(usize, u64)>,
}

impl<'a> Iterator for Moves<'a> {
    type Item = Result<PgnMove<'a>, Error>;

    fn next(&mut self) -> Option<Self::Item> {
        let (offset, level) = self.place.take()?;
        match lent::pgn_next(self.text, offset as u64, level) {
            Ok(None) => None,
            Ok(Some(MovePart { start, length, level, closed, opened })) => {
                let end = start + length;
                self.place = Some((end, level));
                Some(Ok(PgnMove { text: &self.text[start..end], start, level, closed, opened }))
            }
            Err(refused) => Some(Err(refused)),
        }
    }
}

impl FusedIterator for Moves<'_> {}
