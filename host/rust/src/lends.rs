//! Who lends the moves that a position has, and the list that is lent.

use crate::error::Error;
use crate::lent::{MAX_LIST, Record};
use crate::moves::{MAX_MOVE, Move};
use std::fmt;

/// A host: it knows which moves a position has, and lends them.
///
/// The archive believes the list that it is lent. Whatever reads a game asks for a list before each of its moves, and asks one of these;
/// [`Laws`](crate::Laws) is a host that needs no move generator.
///
/// ```
/// use menkhodur::lent::{self, Record};
/// use menkhodur::{Error, Lends, Lent};
///
/// /// A host for whom only pawns move, one step up the board, and no man stands in their way.
/// struct Steps;
///
/// impl Lends for Steps {
///     type Error = Error;
///
///     fn lend(&mut self, record: &Record, _text: &[u8], into: &mut Lent) -> Result<(), Error> {
///         into.clear();
///         let pawns = (0..56).filter(|square| record.numbers[usize::from(*square)] == 1);
///         pawns.map(|square| square + 64 * (square + 8)).try_for_each(|step| into.push(step))
///     }
/// }
///
/// # fn main() -> Result<(), Error> {
/// let (start, mut list) = (lent::fen_read(b"8/8/8/8/8/8/4P3/8 w - -")?, Lent::new());
/// Steps.lend(&start, b"e3", &mut list)?;
/// assert_eq!(list.as_slice(), [12 + 64 * 20]);
/// assert_eq!(lent::san_read_standard(&start, list.as_slice(), b"e3"), Ok(12 + 64 * 20));
/// # Ok(())
/// # }
/// ```
pub trait Lends {
    /// Why a host cannot tell a position's moves.
    type Error;

    /// Makes `into` the list of the moves that the record has, whatever it held before; the order is the host's.
    ///
    /// `text` is the move text that will be read over the list in the form of the PGN standard
    /// ([`lent::san_read_standard`](crate::lent::san_read_standard)). Moves that it cannot mean may be left out: what the text is read as,
    /// and whether it is refused, stay the same. With an empty text the list is whole.
    ///
    /// After an error the list is none, and nothing may be read over it.
    fn lend(&mut self, record: &Record, text: &[u8], into: &mut Lent) -> Result<(), Self::Error>;
}

/// A host that is borrowed lends as it does itself.
impl<L: Lends + ?Sized> Lends for &mut L {
    type Error = L::Error;

    fn lend(&mut self, record: &Record, text: &[u8], into: &mut Lent) -> Result<(), L::Error> {
        (**self).lend(record, text, into)
    }
}

/// A list of moves that can be lent: at most [`MAX_LIST`], none of them over [`MAX_MOVE`], so that the archive never refuses it for its
/// range (6). It is made once and filled for each position anew; nothing is allocated.
///
/// ```
/// use menkhodur::{Error, Lent, Move};
///
/// let mut list = Lent::new();
/// assert!(list.is_empty());
/// list.push(1_153)?;
/// assert_eq!((list.len(), list.as_slice()), (1, &[1_153][..]));
/// assert_eq!(list.moves(), [Move::from_text("b1c3")?]);
/// list.clear();
/// assert_eq!(list, Lent::new());
/// # Ok::<(), Error>(())
/// ```
#[derive(Clone)]
pub struct Lent {
    /// The first `count` of them are the list.
    numbers: [u16; MAX_LIST],
    count: usize,
}

impl Lent {
    /// The empty list.
    #[must_use]
    pub const fn new() -> Lent {
        Lent { numbers: [0; MAX_LIST], count: 0 }
    }

    /// Takes every move out.
    pub fn clear(&mut self) {
        self.count = 0;
    }

    /// Adds a move behind the others. Refused, and the list stays as it is: [`Error::ListOutOfRange`] for a number over [`MAX_MOVE`], and if
    /// the list has [`MAX_LIST`] moves.
    ///
    /// ```
    /// use menkhodur::lent::MAX_LIST;
    /// use menkhodur::{Error, Lent, MAX_MOVE};
    ///
    /// let mut list = Lent::new();
    /// assert_eq!(list.push(MAX_MOVE + 1), Err(Error::ListOutOfRange));
    /// assert_eq!((0..255).try_for_each(|number| list.push(number)), Ok(()));
    /// assert_eq!(list.push(255), Err(Error::ListOutOfRange));
    /// assert_eq!(list.len(), MAX_LIST);
    /// ```
    #[inline]
    pub fn push(&mut self, number: u16) -> Result<(), Error> {
        match self.numbers.get_mut(self.count) {
            Some(place) if number <= MAX_MOVE => {
                *place = number;
                self.count += 1;
                Ok(())
            }
            _ => Err(Error::ListOutOfRange),
        }
    }

    /// Makes the list what the archive writes, which is in range. Refused: as it refuses, and the list is empty.
    pub(crate) fn make(&mut self, write: impl FnOnce(&mut [u16]) -> Result<usize, Error>) -> Result<(), Error> {
        self.clear();
        self.count = write(&mut self.numbers)?;
        Ok(())
    }

    /// The numbers of the moves, as the functions of [`lent`](crate::lent) take them.
    #[inline]
    #[must_use]
    pub fn as_slice(&self) -> &[u16] {
        &self.numbers[..self.count]
    }

    /// The moves, as [`Board`](crate::Board) and [`Position`](crate::Position) take them.
    #[must_use]
    pub fn moves(&self) -> &[Move] {
        Move::list(self.as_slice())
    }

    /// How many moves the list has.
    #[must_use]
    pub fn len(&self) -> usize {
        self.count
    }

    /// Whether it has none.
    #[must_use]
    pub fn is_empty(&self) -> bool {
        self.count == 0
    }
}

impl Default for Lent {
    fn default() -> Lent {
        Lent::new()
    }
}

/// Lists are equal if they have the same moves in the same order; what a list held before it was cleared is no part of it.
impl PartialEq for Lent {
    fn eq(&self, other: &Lent) -> bool {
        self.as_slice() == other.as_slice()
    }
}

impl Eq for Lent {}

impl fmt::Debug for Lent {
    fn fmt(&self, f: &mut fmt::Formatter<'_>) -> fmt::Result {
        f.debug_list().entries(self.moves()).finish()
    }
}
