//! Colours, pieces and castling rights.

use crate::error::certain;
use crate::lent;
use crate::square::Square;
use std::fmt;
use std::ops::Not;

/// A side of the game.
///
/// ```
/// use menkhodur::Color;
///
/// assert_eq!(!Color::White, Color::Black);
/// assert_eq!(Color::White.to_string(), "white");
/// ```
#[derive(Clone, Copy, Debug, PartialEq, Eq, PartialOrd, Ord, Hash)]
pub enum Color {
    /// The side that begins in the initial position, number 0.
    White,
    /// The other side, number 1.
    Black,
}

/// Both colours, white first.
pub const ALL_COLORS: [Color; 2] = [Color::White, Color::Black];

impl Color {
    /// 0 for white, 1 for black.
    ///
    /// ```
    /// assert_eq!(menkhodur::Color::Black.to_index(), 1);
    /// ```
    #[must_use]
    pub fn to_index(self) -> usize {
        self as usize
    }
}

impl Not for Color {
    type Output = Color;

    fn not(self) -> Color {
        match self {
            Color::White => Color::Black,
            Color::Black => Color::White,
        }
    }
}

impl fmt::Display for Color {
    fn fmt(&self, f: &mut fmt::Formatter<'_>) -> fmt::Result {
        f.pad(["white", "black"][self.to_index()])
    }
}

/// A kind of piece.
///
/// ```
/// use menkhodur::Piece;
///
/// assert_eq!(format!("{}{}", Piece::Rook, Piece::Knight), "rn");
/// ```
#[derive(Clone, Copy, Debug, PartialEq, Eq, PartialOrd, Ord, Hash)]
pub enum Piece {
    /// A pawn, written p.
    Pawn,
    /// A knight, written n.
    Knight,
    /// A bishop, written b.
    Bishop,
    /// A rook, written r.
    Rook,
    /// A queen, written q.
    Queen,
    /// A king, written k.
    King,
}

/// All kinds of pieces, in the order of their numbers.
pub const ALL_PIECES: [Piece; 6] = [Piece::Pawn, Piece::Knight, Piece::Bishop, Piece::Rook, Piece::Queen, Piece::King];

impl Piece {
    /// 0 for a pawn to 5 for a king.
    ///
    /// ```
    /// assert_eq!(menkhodur::Piece::King.to_index(), 5);
    /// ```
    #[must_use]
    pub fn to_index(self) -> usize {
        self as usize
    }

    /// The letter of the piece, upper case for white and lower case for black.
    ///
    /// ```
    /// use menkhodur::{Color, Piece};
    ///
    /// assert_eq!(Piece::King.to_string(Color::White), "K");
    /// assert_eq!(Piece::Knight.to_string(Color::Black), "n");
    /// ```
    #[must_use]
    pub fn to_string(self, color: Color) -> String {
        match color {
            Color::White => format!("{self}").to_uppercase(),
            Color::Black => format!("{self}"),
        }
    }
}

impl fmt::Display for Piece {
    fn fmt(&self, f: &mut fmt::Formatter<'_>) -> fmt::Result {
        f.pad(["p", "n", "b", "r", "q", "k"][self.to_index()])
    }
}

/// What castling rights a side has.
#[derive(Clone, Copy, Debug, PartialEq, Eq, PartialOrd, Ord, Hash)]
pub enum CastleRights {
    /// Neither, number 0.
    NoRights,
    /// Castling on the king's side, number 1.
    KingSide,
    /// Castling on the queen's side, number 2.
    QueenSide,
    /// Castling on both sides, number 3.
    Both,
}

/// All castling rights, in the order of their numbers.
pub const ALL_CASTLE_RIGHTS: [CastleRights; 4] =
    [CastleRights::NoRights, CastleRights::KingSide, CastleRights::QueenSide, CastleRights::Both];

impl CastleRights {
    /// The rights with others added.
    ///
    /// ```
    /// use menkhodur::CastleRights;
    ///
    /// assert_eq!(CastleRights::KingSide.add(CastleRights::QueenSide), CastleRights::Both);
    /// ```
    #[must_use = "these rights stay as they are, and those with others added are handed back"]
    pub fn add(&self, add: CastleRights) -> CastleRights {
        CastleRights::numbered(certain(lent::rights_add(*self as u8, add as u8)))
    }

    /// The rights with others removed.
    ///
    /// ```
    /// use menkhodur::CastleRights;
    ///
    /// assert_eq!(CastleRights::Both.remove(CastleRights::KingSide), CastleRights::QueenSide);
    /// ```
    #[must_use = "these rights stay as they are, and those with others removed are handed back"]
    pub fn remove(&self, remove: CastleRights) -> CastleRights {
        CastleRights::numbered(certain(lent::rights_remove(*self as u8, remove as u8)))
    }

    /// The rights that a colour loses when something moves from or to a square.
    ///
    /// ```
    /// use menkhodur::{CastleRights, Color, Square};
    ///
    /// assert_eq!(CastleRights::square_to_castle_rights(Color::White, Square::E1), CastleRights::Both);
    /// assert_eq!(CastleRights::square_to_castle_rights(Color::White, Square::A8), CastleRights::NoRights);
    /// ```
    #[must_use]
    pub fn square_to_castle_rights(color: Color, square: Square) -> CastleRights {
        CastleRights::numbered(certain(lent::square_rights(color as u8, square.to_int())))
    }

    /// Whether castling on the king's side is among them.
    ///
    /// ```
    /// assert!(menkhodur::CastleRights::Both.has_kingside());
    /// ```
    #[must_use]
    pub fn has_kingside(self) -> bool {
        self.to_index() & 1 != 0
    }

    /// Whether castling on the queen's side is among them.
    ///
    /// ```
    /// assert!(!menkhodur::CastleRights::KingSide.has_queenside());
    /// ```
    #[must_use]
    pub fn has_queenside(self) -> bool {
        self.to_index() & 2 != 0
    }

    /// The number of the rights: 0 none, 1 king side, 2 queen side, 3 both.
    ///
    /// ```
    /// assert_eq!(menkhodur::CastleRights::QueenSide.to_index(), 2);
    /// ```
    #[must_use]
    pub fn to_index(self) -> usize {
        self as usize
    }

    pub(crate) fn numbered(number: u8) -> CastleRights {
        ALL_CASTLE_RIGHTS[usize::from(number)]
    }
}
