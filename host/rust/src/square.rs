//! Squares, ranks and files.

use crate::error::{Error, certain};
use crate::lent;
use crate::moves::text_of;
use std::fmt;
use std::str::FromStr;

/// A rank of the board.
#[derive(Clone, Copy, Debug, PartialEq, Eq, PartialOrd, Ord, Hash)]
pub enum Rank {
    /// The rank written 1.
    First,
    /// The rank written 2.
    Second,
    /// The rank written 3.
    Third,
    /// The rank written 4.
    Fourth,
    /// The rank written 5.
    Fifth,
    /// The rank written 6.
    Sixth,
    /// The rank written 7.
    Seventh,
    /// The rank written 8.
    Eighth,
}

/// All ranks, from white's side.
pub const ALL_RANKS: [Rank; 8] =
    [Rank::First, Rank::Second, Rank::Third, Rank::Fourth, Rank::Fifth, Rank::Sixth, Rank::Seventh, Rank::Eighth];

impl Rank {
    /// 0 for the first rank to 7 for the eighth.
    ///
    /// ```
    /// assert_eq!(menkhodur::Rank::Eighth.to_index(), 7);
    /// ```
    #[must_use]
    pub fn to_index(self) -> usize {
        self as usize
    }
}

/// A file of the board.
#[derive(Clone, Copy, Debug, PartialEq, Eq, PartialOrd, Ord, Hash)]
pub enum File {
    /// The file written a.
    A,
    /// The file written b.
    B,
    /// The file written c.
    C,
    /// The file written d.
    D,
    /// The file written e.
    E,
    /// The file written f.
    F,
    /// The file written g.
    G,
    /// The file written h.
    H,
}

/// All files, from the queen's side.
pub const ALL_FILES: [File; 8] = [File::A, File::B, File::C, File::D, File::E, File::F, File::G, File::H];

impl File {
    /// 0 for file a to 7 for file h.
    ///
    /// ```
    /// assert_eq!(menkhodur::File::H.to_index(), 7);
    /// ```
    #[must_use]
    pub fn to_index(self) -> usize {
        self as usize
    }
}

/// A square of the board: the number of its rank times 8 plus the number of its file.
///
/// ```
/// use menkhodur::{File, Rank, Square};
///
/// assert_eq!(Square::make_square(Rank::Fourth, File::E), Square::E4);
/// assert_eq!(Square::E4.to_int(), 28);
/// assert_eq!(Square::E4.to_string(), "e4");
/// ```
#[derive(Clone, Copy, Debug, Default, PartialEq, Eq, PartialOrd, Ord, Hash)]
pub struct Square(u8);

impl Square {
    /// The square on a rank and a file.
    ///
    /// ```
    /// use menkhodur::{File, Rank, Square};
    ///
    /// assert_eq!(Square::make_square(Rank::First, File::A), Square::default());
    /// ```
    #[must_use]
    pub fn make_square(rank: Rank, file: File) -> Square {
        Square(certain(lent::make_square(rank as u8, file as u8)))
    }

    /// The square's rank.
    ///
    /// ```
    /// use menkhodur::{Rank, Square};
    ///
    /// assert_eq!(Square::D7.get_rank(), Rank::Seventh);
    /// ```
    #[must_use]
    pub fn get_rank(self) -> Rank {
        ALL_RANKS[self.to_index() / 8]
    }

    /// The square's file.
    ///
    /// ```
    /// use menkhodur::{File, Square};
    ///
    /// assert_eq!(Square::D7.get_file(), File::D);
    /// ```
    #[must_use]
    pub fn get_file(self) -> File {
        ALL_FILES[self.to_index() % 8]
    }

    /// The square's number, 0 for a1 to 63 for h8.
    ///
    /// ```
    /// assert_eq!(menkhodur::Square::H8.to_int(), 63);
    /// ```
    #[must_use]
    pub fn to_int(self) -> u8 {
        self.0
    }

    /// The square's number, to look things up by.
    ///
    /// ```
    /// assert_eq!(menkhodur::Square::H8.to_index(), 63);
    /// ```
    #[must_use]
    pub fn to_index(self) -> usize {
        usize::from(self.0)
    }

    pub(crate) fn low_six_bits(number: u16) -> Square {
        Square((number % 64) as u8)
    }
}

/// Reads a square such as `e4`: a letter a to h and a digit 1 to 8, and nothing more. The original drops what follows.
///
/// Every other text is refused with [`Error::InvalidSquare`], which is answer 2 also where the length is at fault. The offset is the text's
/// length if it has fewer than two bytes; else 0 if the file byte is none of a to h, 1 if the rank byte is none of 1 to 8, and 2 if there is
/// more behind a square.
///
/// ```
/// use menkhodur::{Error, Square};
///
/// assert_eq!("e4".parse(), Ok(Square::E4));
/// assert_eq!("e".parse::<Square>(), Err(Error::InvalidSquare { offset: 1 }));
/// assert_eq!("E9".parse::<Square>(), Err(Error::InvalidSquare { offset: 0 }));
/// assert_eq!("e9".parse::<Square>(), Err(Error::InvalidSquare { offset: 1 }));
/// assert_eq!("e4 ".parse::<Square>(), Err(Error::InvalidSquare { offset: 2 }));
/// ```
impl FromStr for Square {
    type Err = Error;

    fn from_str(text: &str) -> Result<Square, Error> {
        let offset = match *text.as_bytes() {
            [file @ b'a'..=b'h', rank @ b'1'..=b'8'] => return Ok(Square((rank - b'1') * 8 + (file - b'a'))),
            [] | [_] => text.len(),
            [b'a'..=b'h', b'1'..=b'8', ..] => 2,
            [b'a'..=b'h', ..] => 1,
            _ => 0,
        };
        Err(Error::InvalidSquare { offset })
    }
}

/// The square with a number, 0 for a1 to 63 for h8. Refused: [`Error::OutOfRange`].
///
/// ```
/// use menkhodur::{Error, Square};
///
/// assert_eq!(Square::try_from(28), Ok(Square::E4));
/// assert_eq!(Square::try_from(64), Err(Error::OutOfRange));
/// ```
impl TryFrom<u8> for Square {
    type Error = Error;

    fn try_from(number: u8) -> Result<Square, Error> {
        lent::make_square(number / 8, number % 8).map(Square)
    }
}

impl fmt::Display for Square {
    fn fmt(&self, f: &mut fmt::Formatter<'_>) -> fmt::Result {
        f.pad(&text_of(&[b'a' + self.0 % 8, b'1' + self.0 / 8]))
    }
}

macro_rules! ranks_of_squares {
    ($($rank:literal: $($name:ident)*;)*) => {
        impl Square {
            $(ranks_of_squares!(@rank $rank * 8; $($name)*);)*
        }
    };
    (@rank $number:expr; $name:ident $($more:ident)*) => {
        #[doc = concat!("The square ", stringify!($name), ".")]
        pub const $name: Square = Square($number);
        ranks_of_squares!(@rank $number + 1; $($more)*);
    };
    (@rank $number:expr;) => {};
}

ranks_of_squares! {
    0: A1 B1 C1 D1 E1 F1 G1 H1;
    1: A2 B2 C2 D2 E2 F2 G2 H2;
    2: A3 B3 C3 D3 E3 F3 G3 H3;
    3: A4 B4 C4 D4 E4 F4 G4 H4;
    4: A5 B5 C5 D5 E5 F5 G5 H5;
    5: A6 B6 C6 D6 E6 F6 G6 H6;
    6: A7 B7 C7 D7 E7 F7 G7 H7;
    7: A8 B8 C8 D8 E8 F8 G8 H8;
}
