//! What a log holds: its actions and positions, and how they are read where they lie.

use crate::board::Board;
use crate::error::Error;
use crate::judgement::Judgement;
use crate::lent::{self, ACTION_BYTES, Given, PAGE_RECORD, POSITION_BYTES, Record};
use crate::moves::Move;
use crate::piece::{ALL_COLORS, Color};
use std::fmt;
use std::iter::FusedIterator;
use std::slice::{self, ChunksExact};

/// What a log or a roll holds an entry for.
///
/// ```
/// use menkhodur::{Action, Board, Color, Log, Move, Position};
///
/// let list = [Move::from_text("b1c3").unwrap()];
/// let mut log = Log::start(&Position { board: Board::default(), in_check: false, list: &list }).unwrap();
/// log.offer_draw(Color::White).unwrap();
/// log.resign(Color::Black).unwrap();
/// let actions: Vec<Action> = log.actions().collect();
/// assert_eq!(actions, [Action::OfferDraw(Color::White), Action::Resign(Color::Black)]);
/// ```
#[derive(Clone, Copy, Debug, PartialEq, Eq, Hash)]
pub enum Action {
    /// A move was made.
    MakeMove(Move),
    /// A colour has offered a draw.
    OfferDraw(Color),
    /// The offered draw was accepted.
    AcceptDraw,
    /// A draw was declared.
    DeclareDraw,
    /// A colour has resigned.
    Resign(Color),
}

impl Action {
    /// The action of 4 bytes that the archive has judged or written.
    pub(crate) fn of_good_log(bytes: &[u8]) -> Action {
        let color = ALL_COLORS[usize::from(bytes[1])];
        match bytes[0] {
            MAKE_MOVE => Action::MakeMove(Move::of_list(u16::from_le_bytes([bytes[2], bytes[3]]))),
            2 => Action::OfferDraw(color),
            3 => Action::AcceptDraw,
            4 => Action::DeclareDraw,
            _ => Action::Resign(color),
        }
    }

    /// The 4 bytes that a log has for the action.
    pub(crate) fn bytes(self) -> [u8; ACTION_BYTES] {
        match self {
            Action::MakeMove(made) => {
                let [low, high] = made.number().to_le_bytes();
                [MAKE_MOVE, 0, low, high]
            }
            Action::OfferDraw(color) => [2, color as u8, 0, 0],
            Action::AcceptDraw => [3, 0, 0, 0],
            Action::DeclareDraw => [4, 0, 0, 0],
            Action::Resign(color) => [5, color as u8, 0, 0],
        }
    }
}

/// A position as a log is given it and gives it back: the board, whether its side to move is in check, and the moves that can be made.
/// What is said here is believed, and an empty list is what ends a game; [`Position::judged`] judges it by the Laws.
///
/// Two positions of a log are equal, so that the later one repeats the other, if their boards are, counters aside, and their lists are in the
/// same order too; `==` compares the counters as well. Whoever sorts must sort every list of a game alike, the start's too: otherwise a
/// position that came before is not recognised, and a claim by equal positions does not stand.
///
/// ```
/// use menkhodur::{Board, GameResult, Log, Position};
///
/// let mated = Position { board: Board::new(), in_check: true, list: &[] };
/// assert_eq!(Log::start(&mated).unwrap().result(), Some(GameResult::BlackCheckmates));
/// ```
#[derive(Clone, Copy, Debug, PartialEq, Eq, Hash)]
pub struct Position<'a> {
    /// The board.
    pub board: Board,
    /// Whether the side to move is in check.
    pub in_check: bool,
    /// The moves that can be made, at most 255.
    pub list: &'a [Move],
}

impl<'a> Position<'a> {
    /// What is owed to the board by the Laws, and the first thing that is wrong with the list and with whether the side to move is in check.
    /// Refused: [`Error::ListOutOfRange`] for more than 255 moves in the list, or for more than 255 legal ones.
    ///
    /// ```
    /// use menkhodur::{Board, Error, Log, Move, Position, Wrong};
    ///
    /// let list: [Move; 2] = ["b1c3".parse()?, "e1g1".parse()?];
    /// let log = Log::start(&Position { board: Board::default(), in_check: false, list: &list })?;
    /// let wrong = |position: Position<'_>| position.judged().map(|judged| judged.wrong);
    /// assert_eq!(log.positions().map(wrong).collect::<Result<Vec<_>, _>>()?, [Some(Wrong::NotLegal(list[1]))]);
    /// # Ok::<(), Error>(())
    /// ```
    pub fn judged(&self) -> Result<Judgement, Error> {
        lent::list_judged(self.given()).map(Judgement::of)
    }

    pub(crate) fn given(&self) -> Given<'_> {
        Given { record: self.board.record(), in_check: u8::from(self.in_check), list: Move::numbers(self.list) }
    }

    pub(crate) fn of_good_log(pairs: &'a [u16]) -> Position<'a> {
        let bytes = bytes(pairs);
        let list = &pairs[LIST / 2..][..usize::from(bytes[ENTRIES])];
        Position { board: Board::of_good_log(record_at(bytes)), in_check: bytes[IN_CHECK] == 1, list: Move::list(list) }
    }
}

// A log keeps its positions as pairs of bytes, not as bytes: then a list that lies among them is aligned, and its moves, low byte first,
// are numbers that can be lent as they lie.
#[cfg(not(target_endian = "little"))]
compile_error!("the archive is made for x86-64, and a log lends its lists low byte first");

/// Pairs of bytes that one position has.
pub(crate) const POSITION_PAIRS: usize = POSITION_BYTES / 2;

// Where a position has what comes after the numbers of its record: the two counters, the in-check byte, the length of its list, and the list.
const HALF_MOVES: usize = PAGE_RECORD;
const FULL_MOVES: usize = HALF_MOVES + 2;
const IN_CHECK: usize = FULL_MOVES + 2;
const ENTRIES: usize = IN_CHECK + 1;
const LIST: usize = ENTRIES + 1;

/// The kind of an action that is a move.
const MAKE_MOVE: u8 = 1;

/// A position as its bytes in a part have it, in range or not: what a log was given, so that it can be given again.
#[derive(Clone, Debug, PartialEq, Eq, Hash)]
pub struct StoredPosition {
    /// The record.
    pub record: Record,
    /// The in-check byte.
    pub in_check: u8,
    /// As many moves as the length of the list says.
    pub list: Vec<u16>,
}

impl StoredPosition {
    /// The position as a log takes it.
    #[must_use]
    pub fn given(&self) -> Given<'_> {
        Given { record: &self.record, in_check: self.in_check, list: &self.list }
    }
}

/// The position of a part after so many moves, or `None` if the part ends before it does. Nothing is judged.
///
/// ```
/// use menkhodur::lent::{self, ACTIONS_PART, Given, POSITION_BYTES, POSITIONS_PART, Record};
///
/// let mut positions = vec![0; POSITIONS_PART];
/// let record = Record { numbers: [1; 68], half_moves: 300, full_moves: 400 };
/// lent::game_start(&[0; ACTIONS_PART], &mut positions, Given { record: &record, in_check: 1, list: &[1153, 7] }).unwrap();
/// let start = lent::stored_position(&positions, 0).unwrap();
/// assert_eq!((start.record, start.in_check, start.list), (record, 1, vec![1153, 7]));
/// assert_eq!(lent::stored_position(&positions[..POSITION_BYTES - 1], 0), None);
/// ```
#[must_use]
pub fn stored_position(positions: &[u8], moves: usize) -> Option<StoredPosition> {
    let position = positions.chunks_exact(POSITION_BYTES).nth(moves)?;
    let list = (0..usize::from(position[ENTRIES])).map(|entry| pair_at(position, LIST + 2 * entry)).collect();
    Some(StoredPosition { record: record_at(position), in_check: position[IN_CHECK], list })
}

/// The record that a position's bytes begin with.
fn record_at(position: &[u8]) -> Record {
    let mut numbers = [0; PAGE_RECORD];
    numbers.copy_from_slice(&position[..PAGE_RECORD]);
    Record { numbers, half_moves: pair_at(position, HALF_MOVES), full_moves: pair_at(position, FULL_MOVES) }
}

/// A number of two bytes, low byte first.
fn pair_at(bytes: &[u8], at: usize) -> u16 {
    u16::from_le_bytes([bytes[at], bytes[at + 1]])
}

/// How many of the first `count` actions of a part are moves, by their kind alone: the second of the counts of that much of a log.
///
/// ```
/// assert_eq!(menkhodur::lent::moves_among(&[1, 0, 12, 7, 5, 1, 0, 0], 2), 1);
/// ```
#[must_use]
pub fn moves_among(actions: &[u8], count: usize) -> u64 {
    actions.chunks_exact(ACTION_BYTES).take(count).filter(|action| action[0] == MAKE_MOVE).count() as u64
}

/// Pairs of bytes, as the archive and a store have them.
pub(crate) fn bytes(pairs: &[u16]) -> &[u8] {
    // SAFETY: a pair is two bytes without a gap, every one of which is some number, and they stay borrowed as the pairs were.
    unsafe { slice::from_raw_parts(pairs.as_ptr().cast(), 2 * pairs.len()) }
}

/// The same, to be written: any two bytes are a pair.
pub(crate) fn bytes_mut(pairs: &mut [u16]) -> &mut [u8] {
    // SAFETY: as above, and whatever is written leaves each pair some number.
    unsafe { slice::from_raw_parts_mut(pairs.as_mut_ptr().cast(), 2 * pairs.len()) }
}

/// The actions of a log, in order, as [`Log::actions`](crate::Log::actions) gives them.
///
/// ```
/// use menkhodur::{Action, Board, Color, Log, Move, Position};
///
/// let list = [Move::from_text("b1c3").unwrap()];
/// let mut log = Log::start(&Position { board: Board::default(), in_check: false, list: &list }).unwrap();
/// log.offer_draw(Color::White).unwrap();
/// log.resign(Color::Black).unwrap();
/// assert_eq!(log.actions().len(), 2);
/// assert_eq!(log.actions().next_back(), Some(Action::Resign(Color::Black)));
/// ```
#[must_use = "iterators are lazy and do nothing unless consumed"]
#[derive(Clone)]
pub struct Actions<'a>(pub(crate) ChunksExact<'a, u8>);

/// The positions of a log, the start first and then one after each move, as [`Log::positions`](crate::Log::positions) gives them.
///
/// ```
/// use menkhodur::{Board, Log, Move, Position};
///
/// let list = [Move::from_text("b1c3").unwrap()];
/// let start = Position { board: Board::default(), in_check: false, list: &list };
/// let log = Log::start(&start).unwrap();
/// assert_eq!(log.positions().len(), 1);
/// assert_eq!(log.positions().next(), Some(start));
/// ```
#[must_use = "iterators are lazy and do nothing unless consumed"]
#[derive(Clone)]
pub struct Positions<'a>(pub(crate) ChunksExact<'a, u16>);

macro_rules! iterates {
    ($name:ident, $item:ty) => {
        impl<'a> Iterator for $name<'a> {
            type Item = $item;

            fn next(&mut self) -> Option<Self::Item> {
                self.0.next().map(<Self::Item>::of_good_log)
            }

            fn size_hint(&self) -> (usize, Option<usize>) {
                self.0.size_hint()
            }

            // Skipping must not cost a look at each entry: `nth` is how a position is had by its index.
            fn nth(&mut self, index: usize) -> Option<Self::Item> {
                self.0.nth(index).map(<Self::Item>::of_good_log)
            }
        }

        impl DoubleEndedIterator for $name<'_> {
            fn next_back(&mut self) -> Option<Self::Item> {
                self.0.next_back().map(<Self::Item>::of_good_log)
            }
        }

        impl ExactSizeIterator for $name<'_> {}

        impl FusedIterator for $name<'_> {}

        impl fmt::Debug for $name<'_> {
            fn fmt(&self, f: &mut fmt::Formatter<'_>) -> fmt::Result {
                f.debug_list().entries(self.clone()).finish()
            }
        }
    };
}

iterates!(Actions, Action);
iterates!(Positions, Position<'a>);
