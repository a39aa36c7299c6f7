//! A lent list and a lent in-check byte, judged by the Laws, and a host that lends the archive's own lists.

use crate::error::Error;
use crate::lends::{Lends, Lent};
use crate::lent::{self, Record};
use crate::moves::Move;
use std::fmt;

/// What is owed to a board by the FIDE Laws of Chess, and the first thing that is wrong with a list and an in-check byte that were lent for
/// it. [`Position::judged`](crate::Position::judged) gives it.
///
/// ```
/// use menkhodur::{Board, Error, Position, Wrong};
///
/// // The knight is pinned.
/// let board = Board::from_fen("4r2k/8/8/8/8/8/4N3/4K3 w - -")?;
/// let legal = board.legal_moves()?;
/// let lent = Position { board, in_check: false, list: legal.moves() };
/// assert_eq!(lent.judged()?.wrong, None);
///
/// let pinned = [legal.moves(), &["e2c3".parse()?]].concat();
/// let judged = Position { list: &pinned, ..lent }.judged()?;
/// assert_eq!((judged.in_check, judged.entries), (false, legal.len()));
/// assert_eq!(judged.wrong, Some(Wrong::NotLegal("e2c3".parse()?)));
/// # Ok::<(), Error>(())
/// ```
#[must_use = "a list is judged for what is wrong with it"]
#[derive(Clone, Copy, Debug, PartialEq, Eq, Hash)]
pub struct Judgement {
    /// Whether the side to move is in check.
    pub in_check: bool,
    /// How many legal moves there are.
    pub entries: usize,
    /// The first thing that is wrong, in the order of [`Wrong`], or `None` if the list has the legal moves, each once, in any order, and it
    /// was said rightly whether the side to move is in check.
    pub wrong: Option<Wrong>,
}

impl Judgement {
    pub(crate) fn of(judged: lent::Judged) -> Judgement {
        let named = Move::of_list(judged.named);
        let wrong = match judged.wrong {
            0 => None,
            1 => Some(Wrong::NotLegal(named)),
            2 => Some(Wrong::Twice(named)),
            3 => Some(Wrong::Missing(named)),
            _ => Some(Wrong::InCheck),
        };
        Judgement { in_check: judged.in_check == 1, entries: judged.entries, wrong }
    }
}

/// What is wrong with a list and an in-check byte, in the order in which it is asked for.
#[derive(Clone, Copy, Debug, PartialEq, Eq, Hash)]
pub enum Wrong {
    /// The list has a move that is not legal: the first such entry.
    NotLegal(Move),
    /// The list has a move twice: the first entry that comes again.
    Twice(Move),
    /// A legal move is missing: the one with the smallest number.
    Missing(Move),
    /// The side to move is in check and was said not to be, or the other way round.
    InCheck,
}

/// Writes what is wrong in words, with the move in coordinates.
///
/// ```
/// assert_eq!(menkhodur::Wrong::Missing("g1f3".parse().unwrap()).to_string(), "the legal move g1f3 is missing");
/// ```
impl fmt::Display for Wrong {
    fn fmt(&self, f: &mut fmt::Formatter<'_>) -> fmt::Result {
        match self {
            Wrong::NotLegal(listed) => write!(f, "the listed move {listed} is not legal"),
            Wrong::Twice(listed) => write!(f, "the move {listed} is listed twice"),
            Wrong::Missing(legal) => write!(f, "the legal move {legal} is missing"),
            Wrong::InCheck => f.write_str("it is said wrongly whether the side to move is in check"),
        }
    }
}

/// A host that lends the legal moves, as [`Board::legal_moves`](crate::Board::legal_moves) gives them: whatever asks a host for its lists
/// can be given this one, and nothing is then believed.
///
/// ```
/// use menkhodur::{Board, Laws, MoveText};
///
/// let mut game = MoveText::new("1. f3 e5 2. g4 Qh4#").positions(Board::default(), Laws);
/// let mated = game.by_ref().last().unwrap().unwrap().board;
/// assert!(mated.in_check() && mated.legal_moves().unwrap().is_empty());
/// ```
#[derive(Clone, Copy, Debug, Default)]
pub struct Laws;

impl Lends for Laws {
    type Error = Error;

    fn lend(&mut self, record: &Record, _text: &[u8], into: &mut Lent) -> Result<(), Error> {
        into.make(|room| lent::legal_list(record, room))
    }
}
