//! Rolls: finished games without their positions, as bytes for a store.

use crate::board::Board;
use crate::entry::Action;
use crate::error::Error;
use crate::lent::{self, ACTION_BYTES, ACTIONS_PART, MAX_ROLL, Rolled};

/// What a roll holds (document 02, orders 1 and 12): the board that a game starts from, and what was done.
///
/// As bytes it is the start's 70 numbers, the counters last, the count of the actions, then for each action its kind times two plus its
/// colour and, for a move, the move's number; every number in groups of seven bits, the lowest first, the top bit set on all but the last,
/// in the fewest groups. A start with its actions has one roll, and every roll that is read is written back as it came.
///
/// Before version 12 a roll had no counters: such an old one is read by [`Roll::from_old_bytes`]. Bytes can be both an old roll and a new
/// one, and then they say two things, so never try one reader after the other: a store must know which kind it keeps.
///
/// Whether the actions make a game is not asked: that takes the positions, which only a [`Log`](crate::Log) has.
/// [`Log::to_roll`](crate::Log::to_roll) gives a log's roll.
///
/// ```
/// use menkhodur::{Action, Board, Color, Move, Roll};
///
/// let actions = vec![Action::MakeMove(Move::from_text("e2e4").unwrap()), Action::Resign(Color::Black)];
/// let roll = Roll { start: Board::default(), actions };
/// let bytes = roll.to_bytes().unwrap();
/// assert_eq!(bytes[..68], *Board::default().numbers());
/// // The counters 0 and 1, then two actions: the move 1,804, which is 12 + 128 * 14, and black resigns.
/// assert_eq!(bytes[68..], [0, 1, 2, 2, 128 + 12, 14, 11]);
/// assert_eq!(Roll::from_bytes(&bytes), Ok(roll));
/// ```
#[derive(Clone, Debug, PartialEq, Eq, Hash)]
pub struct Roll {
    /// The board that the game starts from.
    pub start: Board,
    /// What was done, in order: at most [`lent::MAX_ACTIONS`] actions, and at most [`lent::MAX_MOVES`] of them moves.
    pub actions: Vec<Action>,
}

impl Roll {
    /// What a roll's bytes hold. Refused, whichever comes first from the left: [`Error::OutOfRange`] for a number of the start,
    /// [`Error::LogFull`] for more actions or moves than a log holds, [`Error::BadRoll`] for all else that is wrong.
    ///
    /// ```
    /// use menkhodur::{Board, Error, Roll};
    ///
    /// let mut bytes = [0; 71];
    /// bytes[69] = 1;
    /// assert_eq!(Roll::from_bytes(bytes), Ok(Roll { start: Board::new(), actions: vec![] }));
    /// assert_eq!(Roll::from_bytes(&bytes[..70]), Err(Error::BadRoll));
    /// bytes[69] = 0;
    /// assert_eq!(Roll::from_bytes(bytes), Err(Error::OutOfRange));
    /// ```
    pub fn from_bytes(bytes: impl AsRef<[u8]>) -> Result<Roll, Error> {
        read(bytes.as_ref(), lent::roll_read)
    }

    /// What the bytes of an old roll hold, one from before version 12, which has no counters: the start gets 0 and 1. Refused as by
    /// [`Roll::from_bytes`]. [`Roll::to_bytes`] writes it with its counters.
    ///
    /// ```
    /// use menkhodur::{Board, Roll};
    ///
    /// let roll = Roll::from_old_bytes([0; 69]).unwrap();
    /// assert_eq!(roll, Roll { start: Board::new(), actions: vec![] });
    /// assert_eq!(roll.to_bytes().unwrap(), [&[0; 68][..], &[0, 1], &[0]].concat());
    /// ```
    pub fn from_old_bytes(bytes: impl AsRef<[u8]>) -> Result<Roll, Error> {
        read(bytes.as_ref(), lent::roll_read_old)
    }

    /// The one roll of this start with these actions. Refused: [`Error::LogFull`] for more actions or moves than a log holds.
    ///
    /// ```
    /// use menkhodur::lent::MAX_ACTIONS;
    /// use menkhodur::{Action, Board, Error, Roll};
    ///
    /// let mut roll = Roll { start: Board::default(), actions: vec![Action::AcceptDraw; MAX_ACTIONS] };
    /// assert_eq!(roll.to_bytes().unwrap().len(), 70 + 2 + MAX_ACTIONS);
    /// roll.actions.push(Action::AcceptDraw);
    /// assert_eq!(roll.to_bytes(), Err(Error::LogFull));
    /// ```
    pub fn to_bytes(&self) -> Result<Vec<u8>, Error> {
        let mut part = [0; ACTIONS_PART];
        // Actions past the part's end are not copied, and their count is refused.
        for (bytes, action) in part.chunks_exact_mut(ACTION_BYTES).zip(&self.actions) {
            bytes.copy_from_slice(&action.bytes());
        }
        written(&self.start, &part, self.actions.len() as u64)
    }
}

/// As [`Roll::from_bytes`]: an old roll is not meant.
///
/// ```
/// use menkhodur::{Error, Roll};
///
/// let none: &[u8] = &[];
/// assert_eq!(Roll::try_from(none), Err(Error::BadRoll));
/// ```
impl TryFrom<&[u8]> for Roll {
    type Error = Error;

    fn try_from(bytes: &[u8]) -> Result<Roll, Error> {
        Roll::from_bytes(bytes)
    }
}

/// What a reader of rolls, the new one's or the old one's, makes of the bytes.
fn read(bytes: &[u8], reader: fn(&[u8], &mut [u8]) -> Result<Rolled, Error>) -> Result<Roll, Error> {
    let mut part = [0; ACTIONS_PART];
    let rolled = reader(bytes, &mut part)?;
    // The archive counts at most as many as the part has.
    let actions = part.chunks_exact(ACTION_BYTES).take(rolled.actions as usize).map(Action::of_good_log).collect();
    Ok(Roll { start: Board::of_good_log(rolled.record), actions })
}

/// The roll of a start and of the first `count` actions of a part.
pub(crate) fn written(start: &Board, part: &[u8], count: u64) -> Result<Vec<u8>, Error> {
    let mut room = [0; MAX_ROLL];
    let length = lent::roll_write(start.record(), part, count, &mut room)?;
    Ok(room[..length].to_vec())
}
