//! Whether a draw may be claimed, by document 01 and by the Laws, and what that rests on.

use crate::lent::{Counts, Ruled};
use crate::log::GameResult;
use std::fmt;

/// Why a draw may be claimed.
///
/// ```
/// use menkhodur::Reason;
///
/// assert_eq!(Reason::EqualPositions.number(), 2);
/// assert_eq!(Reason::EqualPositions.to_string(), "by equal positions");
/// ```
#[derive(Clone, Copy, Debug, PartialEq, Eq, PartialOrd, Ord, Hash)]
pub enum Reason {
    /// 1: the count is 100 or more, fifty moves of each side.
    Count,
    /// 2: two or more earlier positions of the run equal the last.
    EqualPositions,
    /// 3: both.
    Both,
}

const ALL_REASONS: [Reason; 3] = [Reason::Count, Reason::EqualPositions, Reason::Both];

impl Reason {
    /// The reason's number in the archive's answer, 1 to 3; 0 is none.
    ///
    /// ```
    /// assert_eq!(menkhodur::Reason::Both.number(), 3);
    /// ```
    #[must_use]
    pub fn number(self) -> u8 {
        self as u8 + 1
    }

    fn of_good_log(number: u64) -> Option<Reason> {
        (number as usize).checked_sub(1).map(|index| ALL_REASONS[index])
    }
}

/// Writes the reason in words.
impl fmt::Display for Reason {
    fn fmt(&self, f: &mut fmt::Formatter<'_>) -> fmt::Result {
        f.pad(match self {
            Reason::Count => "by the count",
            Reason::EqualPositions => "by equal positions",
            Reason::Both => "by the count and by equal positions",
        })
    }
}

/// Whether a draw may be claimed in a log, by document 01 and by the Laws (document 02, order 5), and what both rulings rest on, as
/// [`Log::ruling`](crate::Log::ruling) gives it.
///
/// Moves are those of either side, counted from the log's start on, whatever its clock says. A pawn move, a capture and a change of either
/// side's castling rights each empty the run of positions, which then begins with the position after that move. A position goes by the
/// number of moves that led to it, 0 for the start, as [`Log::positions`](crate::Log::positions) has them.
///
/// ```
/// use menkhodur::{Board, Log, Move, Position, Reason};
///
/// let round = ["g1f3", "g8f6", "f3g1", "f6g8"].map(|text| Move::from_text(text).unwrap());
/// let board = Board::from_fen("6n1/8/8/8/8/8/8/6N1 w - -").unwrap();
/// let mut log = Log::start(&Position { board, in_check: false, list: &round }).unwrap();
/// for made in round.iter().cycle().take(8) {
///     log.play(*made, false, &round).unwrap();
/// }
/// let ruling = log.ruling();
/// assert_eq!((ruling.claim, ruling.laws_claim), (Some(Reason::EqualPositions), Some(Reason::EqualPositions)));
/// assert_eq!((ruling.equals, ruling.earliest), (2, [Some(0), Some(4)]));
/// assert_eq!(
///     ruling.to_string(),
///     "a draw may be claimed by equal positions: \
///      the position after move 8 of the log stood twice before in its run, at the start and after move 4; \
///      the run has 8 moves of either side without a pawn move, a capture or a change of castling rights; \
///      article 9.3 counts 8 without a pawn move or a capture"
/// );
/// ```
#[derive(Clone, Copy, Debug, PartialEq, Eq, Hash)]
pub struct Ruling {
    /// How many moves the log has: the number of the last position, which the others are compared with.
    pub moves: usize,
    /// How the game has ended, or `None` while it goes on. No draw may be claimed in a game that has ended; the rest is as it was.
    pub result: Option<GameResult>,
    /// The moves since a pawn move, a capture or a change of castling rights, or since the start: the reversible count of document 01.
    pub count: usize,
    /// The moves since a pawn move or a capture, or since the start: the count of article 9.3, never below `count`.
    pub laws_count: usize,
    /// How many earlier positions of the run equal the last, in board, counters aside, and list.
    pub equals: usize,
    /// The two earliest of them.
    pub earliest: [Option<usize>; 2],
    /// Why a draw may be declared in the log, by `count` and `equals`, or `None` if it may not.
    pub claim: Option<Reason>,
    /// Why the Laws let a draw be claimed, by `laws_count` and `equals`, or `None` if they do not. They do wherever `claim` is not `None`.
    pub laws_claim: Option<Reason>,
}

impl Ruling {
    // The archive is proved to give no more than the log's own limits allow, so that the casts cut nothing.
    pub(crate) fn of_good_log(ruled: Ruled, counts: Counts, result: Option<GameResult>) -> Ruling {
        let is = |place: u64, at: u64| (ruled.equals > place).then_some(at as usize);
        Ruling {
            moves: counts.moves as usize,
            result,
            count: ruled.count as usize,
            laws_count: ruled.laws_count as usize,
            equals: ruled.equals as usize,
            earliest: [is(0, ruled.first), is(1, ruled.second)],
            claim: Reason::of_good_log(ruled.claim),
            laws_claim: Reason::of_good_log(ruled.laws_claim),
        }
    }

    fn verdict(&self, f: &mut fmt::Formatter<'_>) -> fmt::Result {
        match (self.claim, self.laws_claim, self.result) {
            (None, None, Some(result)) => write!(f, "no draw may be claimed, for the game has ended ({result})"),
            (None, None, None) => f.write_str("no draw may be claimed"),
            (Some(reason), Some(by_laws), _) if reason == by_laws => write!(f, "a draw may be claimed {reason}"),
            (Some(reason), Some(by_laws), _) => write!(f, "a draw may be claimed {reason}, and under the Laws {by_laws}"),
            (None, Some(by_laws), _) => {
                write!(f, "a draw may be claimed only under the Laws, {by_laws}, and cannot be declared in the log")
            }
            (Some(reason), None, _) => write!(f, "a draw may be declared only in the log, {reason}, and cannot be claimed under the Laws"),
        }
    }

    fn positions(&self, f: &mut fmt::Formatter<'_>) -> fmt::Result {
        // An arbiter numbers moves in pairs: the log's numbers are said to be its own.
        write!(f, "the position {}{} ", Place(self.moves), if self.moves == 0 { "" } else { " of the log" })?;
        match (self.equals, self.earliest) {
            (1, [Some(first), _]) => write!(f, "stood once before in its run, {}", Place(first)),
            (2, [Some(first), Some(second)]) => write!(f, "stood twice before in its run, {} and {}", Place(first), Place(second)),
            (times, [Some(first), Some(second)]) => {
                write!(f, "stood {times} times before in its run, first {} and then {}", Place(first), Place(second))
            }
            _ => f.write_str("did not stand before in its run"),
        }
    }
}

/// Where a position stands in a game.
struct Place(usize);

impl fmt::Display for Place {
    fn fmt(&self, f: &mut fmt::Formatter<'_>) -> fmt::Result {
        match self.0 {
            0 => f.write_str("at the start"),
            moves => write!(f, "after move {moves}"),
        }
    }
}

/// Writes the ruling for an arbiter: whether a draw may be claimed and by what, the positions that are equal, and both counts.
impl fmt::Display for Ruling {
    fn fmt(&self, f: &mut fmt::Formatter<'_>) -> fmt::Result {
        self.verdict(f)?;
        f.write_str(": ")?;
        self.positions(f)?;
        let moves = if self.count == 1 { "move" } else { "moves" };
        write!(f, "; the run has {} {moves} of either side without a pawn move, a capture or a change of castling rights", self.count)?;
        write!(f, "; article 9.3 counts {} without a pawn move or a capture", self.laws_count)
    }
}
