//! Chess positions, move texts, game logs and rolls, done by a proved archive: one position has one name, and one game has one roll.
//!
//! This package is a safe cover for `libmenkhodur.a`, which `host/archive` makes. "Document 01" is the repository's
//! `docs/papers/01-scope.md`, "document 02" is `02-change-requests.md` beside it, and "the original" is the Rust crate chess 3.2.0, whose
//! names are kept where the meaning is the same. Whoever calls lends the list of moves that a position has, or takes the legal moves by
//! [`Board::legal_moves`]; a list that is lent is believed, and [`Position::judged`] judges it.
//!
//! ```
//! use menkhodur::{Board, Color, Error, Log, Move, Position, Square};
//! # fn main() -> Result<(), Error> {
//! let board = Board::from_fen("rnbqkbnr/pppppppp/8/8/8/8/PPPPPPPP/RNBQKBNR w KQkq -")?;
//! let list = [Move::new(Square::E2, Square::E4, None), Move::new(Square::G1, Square::F3, None)];
//! let knight = board.read_san(&list, "Nf3")?;
//! let mut log = Log::start(&Position { board, in_check: false, list: &list })?;
//! log.play(knight, false, &[Move::new(Square::B8, Square::C6, None)])?;
//! log.resign(Color::Black)?;
//! assert_eq!(log.current_position(), board.after(knight));
//! assert_eq!(board.to_fen(), "rnbqkbnr/pppppppp/8/8/8/8/PPPPPPPP/RNBQKBNR w KQkq - 0 1");
//! assert_eq!(board.name(&list, knight)?, "Nf3");
//! # Ok(())
//! # }
//! ```
//!
//! A board has the two counters of a FEN, the half-move clock and the move number, and [`Board::to_fen_full`] writes them. Its key,
//! [`Board::to_fen`], does not have them: a position is filed once, however it was reached.
//!
//! The archive is linked at build time and is part of the program from then on. `build.rs` takes the one in the directory that
//! `MENKHODUR_ARCHIVE_DIR` names; without that variable it takes the repository's own, and first has `host/archive` make it if
//! it is missing or older than a source. An archive of another version than [`VERSION`] is refused there.
//!
//! Two layers: the types here, whose numbers are in range by construction, and [`lent`], the archive's functions over slices that the
//! caller keeps. Either way a refusal is an [`Error`] with the number that the documents give it, and has changed nothing.

#![deny(missing_docs)]
#![deny(clippy::undocumented_unsafe_blocks)]
#![warn(clippy::all, clippy::must_use_candidate)]

mod board;
mod differences;
mod entry;
mod error;
mod ffi;
mod game;
mod judgement;
mod lends;
pub mod lent;
mod log;
mod moves;
mod page;
mod pgn;
mod piece;
mod report;
mod roll;
mod ruling;
mod square;
mod version;

pub use board::Board;
pub use differences::{Difference, Differences, Refused, Which, differences};
pub use entry::{Action, Actions, Position, Positions};
pub use error::Error;
pub use game::{GamePositions, Played, Unplayed};
pub use judgement::{Judgement, Laws, Wrong};
pub use lends::{Lends, Lent};
pub use lent::{Counts, version};
pub use log::{GameResult, Log};
pub use moves::{MAX_MOVE, Move};
pub use page::{Answers, Page, PageReader};
pub use pgn::{MoveText, Moves, PgnMove};
pub use piece::{ALL_CASTLE_RIGHTS, ALL_COLORS, ALL_PIECES, CastleRights, Color, Piece};
pub use report::Report;
pub use roll::Roll;
pub use ruling::{Reason, Ruling};
pub use square::{ALL_FILES, ALL_RANKS, File, Rank, Square};
pub use version::VERSION;
