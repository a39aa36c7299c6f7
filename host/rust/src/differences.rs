//! What differs between two games, by their rolls.

use crate::entry::Action;
use crate::error::Error;
use crate::lent::{self, ACTIONS_PART, MAX_DIFFERENCES};
use crate::piece::{ALL_COLORS, ALL_PIECES, CastleRights, Color, Piece};
use crate::square::{ALL_FILES, File, Square};
use std::fmt;
use std::iter::FusedIterator;

/// One thing that differs between two games: what it is, and what it is in the first and in the second.
///
/// It is shown as its line of document 02, orders 10 and 12: a key and two numbers, without the newline.
///
/// ```
/// use menkhodur::{Color, Difference, Piece, Square};
///
/// let pawn = Difference::Square { square: Square::E4, first: Some((Piece::Pawn, Color::White)), second: None };
/// assert_eq!(pawn.to_string(), "28 1 0");
/// ```
#[derive(Clone, Copy, Debug, PartialEq, Eq, Hash)]
pub enum Difference {
    /// A square of the start.
    Square {
        /// Which square.
        square: Square,
        /// The man that stands there in the first game, if one does.
        first: Option<(Piece, Color)>,
        /// The man of the second game.
        second: Option<(Piece, Color)>,
    },
    /// The side to move at the start.
    Side {
        /// In the first game.
        first: Color,
        /// In the second game.
        second: Color,
    },
    /// White's castling rights at the start.
    White {
        /// In the first game.
        first: CastleRights,
        /// In the second game.
        second: CastleRights,
    },
    /// Black's castling rights at the start.
    Black {
        /// In the first game.
        first: CastleRights,
        /// In the second game.
        second: CastleRights,
    },
    /// The en passant file of the start.
    EnPassant {
        /// In the first game, if there is one.
        first: Option<File>,
        /// In the second game, if there is one.
        second: Option<File>,
    },
    /// The half-move clock of the start.
    HalfMoves {
        /// In the first game.
        first: u16,
        /// In the second game.
        second: u16,
    },
    /// The move number of the start.
    FullMoves {
        /// In the first game.
        first: u16,
        /// In the second game.
        second: u16,
    },
    /// The first action that differs. Of the actions behind it nothing is told.
    Action {
        /// How many actions come before it.
        index: usize,
        /// The first game's, or none if its actions have ended.
        first: Option<Action>,
        /// The second game's, or none.
        second: Option<Action>,
    },
}

/// The lines of two rolls, in their order, as [`differences`] gives them. There is none exactly if the rolls are equal.
#[derive(Clone, Debug, PartialEq, Eq, Hash)]
#[must_use = "iterators are lazy and do nothing unless consumed"]
pub struct Differences {
    text: String,
    at: usize,
}

/// Which of two rolls.
#[derive(Clone, Copy, Debug, PartialEq, Eq, Hash)]
pub enum Which {
    /// The one given first.
    First,
    /// The one given second.
    Second,
}

/// A roll that is refused, and why. Where both would be, it is the first.
#[derive(Clone, Copy, Debug, PartialEq, Eq, Hash)]
pub struct Refused {
    /// Which roll.
    pub roll: Which,
    /// Why, as [`Roll::from_bytes`](crate::Roll::from_bytes) tells it.
    pub error: Error,
}

/// What differs between two games (document 02, orders 10 and 12): the squares of the start by number, the side to move, white's rights,
/// black's rights, the en passant file, the half-move clock, the move number, and then the first action that differs. Refused: a roll that
/// [`Roll::from_bytes`](crate::Roll::from_bytes) refuses, first roll first. An old roll, one without counters, is read by
/// [`Roll::from_old_bytes`](crate::Roll::from_old_bytes) and written before it is compared.
///
/// ```
/// use menkhodur::{Action, Board, Color, Difference, Error, Move, Roll, Which, differences};
///
/// let e4 = Action::MakeMove(Move::from_text("e2e4").unwrap());
/// let first = Roll { start: Board::default(), actions: vec![e4, Action::Resign(Color::Black)] }.to_bytes().unwrap();
/// let second = Roll { start: Board::default(), actions: vec![e4] }.to_bytes().unwrap();
/// let told: Vec<Difference> = differences(&first, &second).unwrap().collect();
/// assert_eq!(told, [Difference::Action { index: 1, first: Some(Action::Resign(Color::Black)), second: None }]);
/// assert_eq!(told[0].to_string(), "action 1 11 0");
/// assert_eq!(differences(&first, &first).unwrap().count(), 0);
/// let refused = differences(&first, &second[..68]).unwrap_err();
/// assert_eq!((refused.roll, refused.error), (Which::Second, Error::BadRoll));
/// ```
pub fn differences(first: impl AsRef<[u8]>, second: impl AsRef<[u8]>) -> Result<Differences, Refused> {
    let (first, second) = (first.as_ref(), second.as_ref());
    let mut room = [0; MAX_DIFFERENCES];
    match lent::roll_differences(first, second, &mut room) {
        // The archive writes keys, digits, spaces and newlines.
        Ok(length) => Ok(Differences { text: String::from_utf8_lossy(&room[..length]).into_owned(), at: 0 }),
        Err(error) => {
            let first_is_good = lent::roll_read(first, &mut [0; ACTIONS_PART]).is_ok();
            Err(Refused { roll: if first_is_good { Which::Second } else { Which::First }, error })
        }
    }
}

impl Differences {
    /// The lines that are left, each with its newline, as the archive wrote them.
    ///
    /// ```
    /// let plain = [&[0; 68][..], &[0, 1, 0]].concat();
    /// let mut other = plain.clone();
    /// (other[28], other[68]) = (1, 99);
    /// assert_eq!(menkhodur::differences(other, plain).unwrap().as_str(), "28 1 0\nhalf 99 0\n");
    /// ```
    #[must_use]
    pub fn as_str(&self) -> &str {
        &self.text[self.at..]
    }
}

impl Iterator for Differences {
    type Item = Difference;

    fn next(&mut self) -> Option<Difference> {
        let line = self.as_str().lines().next()?;
        let told = told(line);
        self.at += line.len() + 1;
        told
    }

    fn size_hint(&self) -> (usize, Option<usize>) {
        let left = self.as_str().lines().count();
        (left, Some(left))
    }
}

impl ExactSizeIterator for Differences {}
impl FusedIterator for Differences {}

/// What a line of the archive says.
fn told(line: &str) -> Option<Difference> {
    let mut words = line.split(' ');
    let key = words.next()?;
    let mut number = || words.next()?.parse::<u32>().ok();
    Some(match key {
        "side" => Difference::Side { first: colour(number()?)?, second: colour(number()?)? },
        "white" => Difference::White { first: rights(number()?), second: rights(number()?) },
        "black" => Difference::Black { first: rights(number()?), second: rights(number()?) },
        "ep" => Difference::EnPassant { first: file(number()?), second: file(number()?) },
        "half" => Difference::HalfMoves { first: counter(number()?), second: counter(number()?) },
        "full" => Difference::FullMoves { first: counter(number()?), second: counter(number()?) },
        "action" => Difference::Action { index: number()? as usize, first: action(number()?), second: action(number()?) },
        square => {
            Difference::Square { square: Square::try_from(square.parse::<u8>().ok()?).ok()?, first: man(number()?), second: man(number()?) }
        }
    })
}

// The numbers of a roll that was read are in range, so the indices are, and nothing is cut.

fn man(code: u32) -> Option<(Piece, Color)> {
    let code = code.checked_sub(1)? as usize;
    Some((ALL_PIECES[code % 6], ALL_COLORS[code / 6]))
}

fn colour(number: u32) -> Option<Color> {
    ALL_COLORS.get(number as usize).copied()
}

fn rights(number: u32) -> CastleRights {
    CastleRights::numbered(number as u8)
}

fn file(number: u32) -> Option<File> {
    ALL_FILES.get(number.checked_sub(1)? as usize).copied()
}

fn counter(number: u32) -> u16 {
    number as u16
}

fn action(number: u32) -> Option<Action> {
    let (code, [low, high, ..]) = (number % 16, (number / 16).to_le_bytes());
    (number > 0).then(|| Action::of_good_log(&[(code / 2) as u8, (code % 2) as u8, low, high]))
}

impl fmt::Display for Difference {
    fn fmt(&self, f: &mut fmt::Formatter<'_>) -> fmt::Result {
        let man = |man: Option<(Piece, Color)>| man.map_or(0, |(piece, color)| piece as u32 + 1 + 6 * color as u32);
        let file = |file: Option<File>| file.map_or(0, |file| file as u32 + 1);
        let action = |action: Option<Action>| {
            action.map_or(0, |action| {
                let [kind, colour, low, high] = action.bytes();
                u32::from(kind) * 2 + u32::from(colour) + 16 * u32::from(u16::from_le_bytes([low, high]))
            })
        };
        match *self {
            Difference::Square { square, first, second } => write!(f, "{} {} {}", square.to_int(), man(first), man(second)),
            Difference::Side { first, second } => write!(f, "side {} {}", first as u8, second as u8),
            Difference::White { first, second } => write!(f, "white {} {}", first as u8, second as u8),
            Difference::Black { first, second } => write!(f, "black {} {}", first as u8, second as u8),
            Difference::EnPassant { first, second } => write!(f, "ep {} {}", file(first), file(second)),
            Difference::HalfMoves { first, second } => write!(f, "half {first} {second}"),
            Difference::FullMoves { first, second } => write!(f, "full {first} {second}"),
            Difference::Action { index, first, second } => write!(f, "action {index} {} {}", action(first), action(second)),
        }
    }
}

impl fmt::Display for Which {
    fn fmt(&self, f: &mut fmt::Formatter<'_>) -> fmt::Result {
        f.pad(match self {
            Which::First => "first",
            Which::Second => "second",
        })
    }
}

impl fmt::Display for Refused {
    fn fmt(&self, f: &mut fmt::Formatter<'_>) -> fmt::Result {
        write!(f, "the {} roll: {}", self.roll, self.error)
    }
}

impl std::error::Error for Refused {}
