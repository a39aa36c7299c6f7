//! Not proved: the legal moves of a record by plain Rust, a host's part that the proved archive is lent.
//!
//! The archive reads, plays and names moves over a list that whoever calls lends. This package makes such lists right from a record's
//! numbers, keeping nothing beside them, so that no second board can disagree with the archive's. What it answers is tested, by known counts
//! of leaves and against other programs (`judge` beside this file's folder), and not proved.
//!
//! The rules are articles 3.1 to 3.10 of the Laws, over any record that is in range. Where a record is of no game:
//!
//! - A side without a king is never in check; one with several is if any of them is attacked.
//! - Castling needs the right, and king and rook of the side's own colour at home.
//! - Capture in passing needs the record's file, an enemy pawn on that file's rank 5, or 4 for black, and an empty square behind it.
//! - A pawn on its own first rank steps once, one on the last rank not at all.
//! - The other side's king is never taken.
//!
//! ```
//! use menkhodur::{Error, Lends, Lent, lent};
//! use menkhodur_moves::Legal;
//!
//! # fn main() -> Result<(), Error> {
//! let (start, mut list) = (lent::fen_read(b"rnbqkbnr/pppppppp/8/8/8/8/PPPPPPPP/RNBQKBNR w KQkq - 0 1")?, Lent::new());
//! Legal.lend(&start, b"", &mut list)?;
//! assert_eq!(list.len(), 20);
//! // A list for one text has no other man's moves and none to other squares.
//! Legal.lend(&start, b"Nf3", &mut list)?;
//! assert_eq!(list.as_slice(), [6 + 64 * 21]);
//! assert_eq!(lent::san_read_standard(&start, list.as_slice(), b"Nf3"), Ok(6 + 64 * 21));
//! # Ok(())
//! # }
//! ```

#![forbid(unsafe_code)]
#![deny(missing_docs)]
#![warn(clippy::all, clippy::must_use_candidate)]

mod men;
mod narrow;
mod squares;
mod text;
mod whole;

use men::Men;
use menkhodur::lent::Record;
use menkhodur::{Error, Lends, Lent};
use text::Meant;

/// The host that lends legal moves: all of them for an empty text, else those that the text can mean.
#[derive(Clone, Copy, Debug, Default, PartialEq, Eq, Hash)]
pub struct Legal;

impl Lends for Legal {
    type Error = Error;

    fn lend(&mut self, record: &Record, text: &[u8], into: &mut Lent) -> Result<(), Error> {
        if text.is_empty() { legal(record, into) } else { fitting(record, text, into) }
    }
}

/// Makes `into` the list of the record's legal moves, in rising order of their numbers. Refused, as the archive refuses such a record or
/// list, and then the list is no list: [`Error::OutOfRange`] for a record that is out of range, [`Error::ListOutOfRange`] for one with more
/// than 255 moves.
///
/// ```
/// use menkhodur::{Error, Lent, lent};
///
/// # fn main() -> Result<(), Error> {
/// let (mate, mut list) = (lent::fen_read(b"k7/1Q6/1K6/8/8/8/8/8 b - -")?, Lent::new());
/// menkhodur_moves::legal(&mate, &mut list)?;
/// assert!(list.is_empty() && menkhodur_moves::in_check(&mate));
/// let queens = lent::fen_read(b"QQQQQQQQ/Q6Q/Q6Q/Q6Q/Q6Q/Q6Q/Q6Q/QQQQQQQQ w - -")?;
/// assert_eq!(menkhodur_moves::legal(&queens, &mut list), Err(Error::ListOutOfRange));
/// # Ok(())
/// # }
/// ```
pub fn legal(record: &Record, into: &mut Lent) -> Result<(), Error> {
    into.clear();
    whole::list(&Men::of(record)?, into)
}

/// Makes `into` the list of those legal moves that a text in the form of the PGN standard can mean, in rising order: moves of the kind of
/// man that its first letter names, to the last square that it has; for a castling text that castling; for a text without a square none.
/// Over this list the archive's reader answers as over the whole one, refusals too, and the list is made several times as fast. Refused:
/// [`Error::OutOfRange`] for a record that is out of range. One with more than 255 moves is not: so many never go to one square.
///
/// ```
/// use menkhodur::{Error, Lent, lent};
///
/// # fn main() -> Result<(), Error> {
/// let (rooks, mut list) = (lent::fen_read(b"4k3/8/8/8/8/8/8/R3K2R w KQ -")?, Lent::new());
/// for (text, moves) in [("Rd1", "a1d1"), ("R1d1+", "a1d1"), ("O-O-O", "e1c1"), ("Kg1", "e1g1"), ("Ke5", ""), ("Rx", "")] {
///     menkhodur_moves::fitting(&rooks, text.as_bytes(), &mut list)?;
///     assert_eq!(list.moves().iter().map(|one| one.to_string()).collect::<String>(), moves);
/// }
/// # Ok(())
/// # }
/// ```
pub fn fitting(record: &Record, text: &[u8], into: &mut Lent) -> Result<(), Error> {
    into.clear();
    narrow::list(&Men::of(record)?, Meant::of(text), into)
}

/// Whether a king of the side to move is attacked. Of a record that is out of range nothing is said: it answers false.
///
/// ```
/// use menkhodur::lent;
///
/// let check = lent::fen_read(b"4k3/8/8/8/8/8/8/4R3 b - -").unwrap();
/// assert!(menkhodur_moves::in_check(&check));
/// assert!(!menkhodur_moves::in_check(&lent::side_to_move(&check, 0).unwrap()));
/// ```
#[must_use]
pub fn in_check(record: &Record) -> bool {
    Men::of(record).is_ok_and(|men| men.in_check())
}
