//! Moves, their numbers and their coordinate texts.

use crate::error::{Error, certain};
use crate::lent;
use crate::piece::{ALL_PIECES, Piece};
use crate::square::Square;
use std::fmt;
use std::str::FromStr;

/// A move: where from, where to, and what a pawn becomes. It is kept as its number: source + 64 × destination + 4,096 × promotion.
///
/// ```
/// use menkhodur::{Move, Piece, Square};
///
/// let promotes = Move::new(Square::E7, Square::E8, Some(Piece::Queen));
/// assert_eq!("e7e8q".parse(), Ok(promotes));
/// assert_eq!(promotes.to_string(), "e7e8q");
/// assert_eq!(promotes.number(), 52 + 64 * 60 + 4_096 * 5);
/// ```
// Transparent, so that a lent list of moves is a list of numbers to the archive and is not copied.
#[repr(transparent)]
#[doc(alias = "ChessMove")]
#[derive(Clone, Copy, Default, PartialEq, Eq, Hash)]
pub struct Move(u16);

/// The greatest number that a move has.
pub const MAX_MOVE: u16 = 28_671;

impl Move {
    /// A move from one square to another, with a promotion or none.
    ///
    /// ```
    /// use menkhodur::{Move, Square};
    ///
    /// assert_eq!(Move::new(Square::E2, Square::E4, None).number(), 1_804);
    /// ```
    #[must_use]
    pub fn new(source: Square, dest: Square, promotion: Option<Piece>) -> Move {
        let promotion = promotion.map_or(0, |piece| piece as u16 + 1);
        Move(u16::from(source.to_int()) + 64 * u16::from(dest.to_int()) + 4_096 * promotion)
    }

    /// The move with a number. Refused: [`Error::ListOutOfRange`] over 28,671, however large the number is.
    ///
    /// ```
    /// use menkhodur::{Error, Move};
    ///
    /// assert_eq!(Move::from_number(1_804).unwrap().to_string(), "e2e4");
    /// assert_eq!(Move::from_number(65_536 + 1_804), Err(Error::ListOutOfRange));
    /// ```
    pub fn from_number(number: u64) -> Result<Move, Error> {
        // The coordinate writer judges a move's range, so that the limit is asked of the archive and not said here again.
        lent::move_write(number, &mut [0; 5]).map(|_| Move(number as u16))
    }

    /// The move that a coordinate text says, the text being any bytes. Refused: [`Error::InvalidSquare`], [`Error::InvalidUciMove`], each
    /// with the place in the text of what is wrong first.
    ///
    /// ```
    /// use menkhodur::{Error, Move, Square};
    ///
    /// assert_eq!(Move::from_text("e2e4"), Ok(Move::new(Square::E2, Square::E4, None)));
    /// assert_eq!(Move::from_text(b"e2\xff4"), Err(Error::InvalidSquare { offset: 2 }));
    /// assert_eq!(Move::from_text("e2e"), Err(Error::InvalidUciMove { offset: 3 }));
    /// ```
    pub fn from_text(text: impl AsRef<[u8]>) -> Result<Move, Error> {
        lent::move_read(text.as_ref()).map(Move)
    }

    /// The square that the move leaves.
    ///
    /// ```
    /// use menkhodur::{Move, Square};
    ///
    /// assert_eq!(Move::new(Square::E2, Square::E4, None).get_source(), Square::E2);
    /// ```
    #[must_use]
    pub fn get_source(self) -> Square {
        Square::low_six_bits(self.0)
    }

    /// The square that the move goes to.
    ///
    /// ```
    /// use menkhodur::{Move, Square};
    ///
    /// assert_eq!(Move::new(Square::E2, Square::E4, None).get_dest(), Square::E4);
    /// ```
    #[must_use]
    pub fn get_dest(self) -> Square {
        Square::low_six_bits(self.0 / 64)
    }

    /// What a pawn becomes by the move.
    ///
    /// ```
    /// use menkhodur::{Move, Piece, Square};
    ///
    /// assert_eq!(Move::new(Square::E7, Square::E8, Some(Piece::Rook)).get_promotion(), Some(Piece::Rook));
    /// ```
    #[must_use]
    pub fn get_promotion(self) -> Option<Piece> {
        usize::from(self.0 / 4_096).checked_sub(1).map(|index| ALL_PIECES[index])
    }

    /// The move's number, at most 28,671.
    ///
    /// ```
    /// assert_eq!(menkhodur::Move::from_text("a1a1").unwrap().number(), 0);
    /// ```
    #[must_use]
    pub fn number(self) -> u16 {
        self.0
    }

    pub(crate) fn of_list(number: u16) -> Move {
        Move(number)
    }

    // Both ways a list is lent as it lies: `Move` is a transparent `u16`, so that the two slices have one layout.

    pub(crate) fn numbers(list: &[Move]) -> &[u16] {
        // SAFETY: the new slice has the old one's layout and length, and borrows its bytes as they are.
        unsafe { std::slice::from_raw_parts(list.as_ptr().cast(), list.len()) }
    }

    /// The moves with these numbers, none of which is over [`MAX_MOVE`].
    pub(crate) fn list(numbers: &[u16]) -> &[Move] {
        // SAFETY: the new slice has the old one's layout and length, and borrows its bytes as they are. Any `u16` is sound in a `Move`.
        unsafe { std::slice::from_raw_parts(numbers.as_ptr().cast(), numbers.len()) }
    }
}

impl FromStr for Move {
    type Err = Error;

    fn from_str(text: &str) -> Result<Move, Error> {
        Move::from_text(text)
    }
}

impl fmt::Display for Move {
    fn fmt(&self, f: &mut fmt::Formatter<'_>) -> fmt::Result {
        let mut room = [0; 5];
        let length = certain(lent::move_write(u64::from(self.0), &mut room));
        f.pad(&text_of(&room[..length]))
    }
}

impl fmt::Debug for Move {
    fn fmt(&self, f: &mut fmt::Formatter<'_>) -> fmt::Result {
        write!(f, "Move({self})")
    }
}

/// What the archive writes is ASCII, a character a byte.
pub(crate) fn text_of(written: &[u8]) -> String {
    written.iter().copied().map(char::from).collect()
}
