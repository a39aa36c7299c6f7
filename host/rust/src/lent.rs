//! The archive's functions over lent slices, with plain numbers as document 01 has them.
//!
//! A program that keeps its records, lists and log parts itself, say in a mapped file, calls these and copies nothing. Every number is
//! judged by the archive: one that is out of range is a refusal, never cut and never unsound. The types at the root of the package
//! stand on these functions and rule most refusals out.
//!
//! ```
//! use menkhodur::lent;
//!
//! let record = lent::fen_read(b" w - e4").unwrap();
//! let mut room = [b'.'; 30];
//! let length = lent::fen_write(&record, &mut room).unwrap();
//! assert_eq!(&room[..length], b"8/8/8/8/8/8/8/8 w - e6 0 1");
//! assert_eq!(&room[length..], b"....");
//! ```

use crate::error::Error;
use crate::ffi;

pub use crate::entry::{StoredPosition, moves_among, stored_position};

/// What a key names, a page holds and repetition compares: 64 squares from a1 (0 empty, 1 to 6 white pawn, knight, bishop, rook, queen, king,
/// 7 to 12 black), the side to move (0 white, 1 black), white's rights, black's rights, and the en passant file (0 none, 1 to 8).
pub type Numbers = [u8; 68];

/// A board record: 68 numbers of one byte, and the two counters of a FEN. A record of zeros is not in range, for the move number is 0;
/// [`Record::from`] gives the one with the counters 0 and 1. Records are ordered by their numbers, the first that differs deciding.
///
/// ```
/// use menkhodur::Error;
/// use menkhodur::lent::{self, Record};
///
/// let empty = Record::from([0; 68]);
/// assert_eq!(empty, Record { numbers: [0; 68], half_moves: 0, full_moves: 1 });
/// assert_eq!(lent::side_to_move(&Record { full_moves: 0, ..empty }, 1), Err(Error::OutOfRange));
/// ```
#[derive(Clone, Copy, Debug, PartialEq, Eq, PartialOrd, Ord, Hash)]
pub struct Record {
    /// The numbers of the position.
    pub numbers: Numbers,
    /// The half-move clock, 0 to 9,999: moves of either side since the last capture or pawn move.
    pub half_moves: u16,
    /// The number of the move, 1 to 9,999: one more after each move by black.
    pub full_moves: u16,
}

/// The record with the counters 0 and 1, as a game begins.
impl From<Numbers> for Record {
    fn from(numbers: Numbers) -> Record {
        Record { numbers, half_moves: 0, full_moves: 1 }
    }
}

/// Bytes of one action in its part.
pub const ACTION_BYTES: usize = 4;
/// Bytes of one position in its part.
pub const POSITION_BYTES: usize = 584;
/// The most actions that a log holds.
pub const MAX_ACTIONS: usize = 8_192;
/// The most moves that a log holds.
pub const MAX_MOVES: usize = 4_096;
/// The most moves that a list holds.
pub const MAX_LIST: usize = 255;
/// The largest that either counter of a record may be.
pub const MAX_COUNT: u64 = 9_999;
/// The most bytes that a FEN has whose counters are not the record's own: the key.
pub const MAX_FEN: usize = 85;
/// The most bytes that a FEN has with the record's own counters.
pub const MAX_FULL_FEN: usize = 91;
/// The moves of either side from which on a count lets a draw be claimed: fifty of each.
pub const CLAIM_COUNT: usize = 100;
/// The most levels of variations in PGN move text.
pub const DEEPEST_LEVEL: usize = 8;
/// The length that the part of the actions must have.
pub const ACTIONS_PART: usize = MAX_ACTIONS * ACTION_BYTES;
/// The length that the part of the positions must have: a start and one after each move.
pub const POSITIONS_PART: usize = (MAX_MOVES + 1) * POSITION_BYTES;
/// The bytes of a page's room of records that each line has: its [`Numbers`].
pub const PAGE_RECORD: usize = 68;
/// The numbers of a page's other room that each line has: the answer's number, then its offset.
pub const PAGE_NUMBERS: usize = 2;
/// The most lines that a page has which is reported on.
pub const REPORT_LINES: usize = 4_096;
/// The kinds of men: six of each colour.
pub const KINDS: usize = 12;
/// The most bytes that a roll has: the record's numbers, two of each counter and of the count, one of each action, and three more of each move.
pub const MAX_ROLL: usize = PAGE_RECORD + 4 + 2 + MAX_ACTIONS + 3 * MAX_MOVES;

/// The most bytes that the text of what differs between two rolls has.
pub const MAX_DIFFERENCES: usize = 658;

/// How many actions a log has, and how many of them are moves: what the next call on its parts is handed.
#[must_use = "the next call on the log's parts must be handed these counts"]
#[derive(Clone, Copy, Debug, Default, PartialEq, Eq, Hash)]
pub struct Counts {
    /// All actions: moves, offers, acceptances, declarations and resignations.
    pub actions: u64,
    /// The moves among them.
    pub moves: u64,
}

/// A position as it is lent to the log: the record, whether its side to move is in check (0 or 1), and the moves it has.
#[derive(Clone, Copy, Debug)]
pub struct Given<'a> {
    /// The record.
    pub record: &'a Record,
    /// 1 if the side to move is in check, else 0.
    pub in_check: u8,
    /// The numbers of the moves that can be made.
    pub list: &'a [u16],
}

/// A move of PGN move text, as [`pgn_next`] gives it.
#[derive(Clone, Copy, Debug, PartialEq, Eq, Hash)]
pub struct MovePart {
    /// Where the move starts in the text.
    pub start: usize,
    /// How many bytes it has: it ends at `start + length`, which with its level is the place from which to go on.
    pub length: usize,
    /// 0 outside brackets, 1 to 8 inside.
    pub level: u64,
    /// How many brackets are closed between the place and the move. One that opens and closes again in between is not counted.
    pub closed: usize,
    /// How many are then opened: `level` is the place's level without those that are closed and with those that are opened. So a host can
    /// play variations: where one is opened, what follows is played from the record before the last move of the sequence that it stands in.
    pub opened: usize,
}

/// A move of a game's text that was read and played, as [`game_step`] and [`play`] give it.
#[must_use = "the next step is made from the record after this one, and from the end of its text"]
#[derive(Clone, Copy, Debug, PartialEq, Eq, Hash)]
pub struct Step {
    /// Where the move starts in the text; 0 for [`play`].
    pub start: usize,
    /// How many bytes it has: it ends at `start + length`, the place from which to go on.
    pub length: usize,
    /// The number of the listed move.
    pub played: u16,
    /// The record after it.
    pub record: Record,
    /// The length of that record's key, which is written to the front of the room.
    pub key: usize,
}

/// What a roll says besides the actions themselves, as [`roll_read`] and [`roll_read_old`] give it.
#[must_use = "the start is given here alone, and only the count tells which bytes of the part are the roll's"]
#[derive(Clone, Copy, Debug, PartialEq, Eq, Hash)]
pub struct Rolled {
    /// The start.
    pub record: Record,
    /// How many actions were written to the front of the part, 4 bytes each.
    pub actions: u64,
}

/// What the two rulings on a draw rest on (document 02, order 5), as [`game_ruling`] gives it. The counts are of moves of either side, from
/// the start if nothing has emptied them, whatever the start's clock says. A pawn move, a capture and a change of either side's castling
/// rights each empty the run of positions, which then begins with the position after that move; a position's number is the number of moves
/// that led to it. [`Ruling`](crate::Ruling) has the same in types.
#[derive(Clone, Copy, Debug, PartialEq, Eq, Hash)]
pub struct Ruled {
    /// The moves since a pawn move, a capture or a change of rights: the reversible count of document 01.
    pub count: u64,
    /// The moves since a pawn move or a capture: the count of article 9.3 of the Laws.
    pub laws_count: u64,
    /// How many earlier positions of the run equal the last, counters aside.
    pub equals: u64,
    /// The number of the earliest of them; 0 is the start, or none if `equals` is 0.
    pub first: u64,
    /// The number of the next one; 0 if `equals` is 0 or 1.
    pub second: u64,
    /// Whether a draw may be declared: 0 not, or the game has ended, 1 by the count, 2 by equal positions, 3 by both.
    pub claim: u64,
    /// The same by the Laws' count.
    pub laws_claim: u64,
}

/// What is owed to a record, and the first thing that is wrong with what was lent, as [`list_judged`] gives it.
/// [`Judgement`](crate::Judgement) has the same in types.
#[must_use = "a list is judged for what is wrong with it"]
#[derive(Clone, Copy, Debug, PartialEq, Eq, Hash)]
pub struct Judged {
    /// The in-check byte that is owed, 0 or 1.
    pub in_check: u8,
    /// How many moves the list owes.
    pub entries: usize,
    /// What is wrong: 0 nothing, 1 an entry that is not legal, 2 an entry twice, 3 a legal move that is missing, 4 the in-check byte.
    pub wrong: u8,
    /// With 1 the first entry that is not legal, with 2 the first that comes again, with 3 the smallest missing move, else 0.
    pub named: u16,
}

/// What is reported on a page of FEN texts (document 02, order 14), as [`fen_report`] gives it. The figures do not depend on the order of the
/// lines. [`Report`](crate::Report) has the same in types.
#[must_use = "a page is reported on for its figures"]
#[derive(Clone, Copy, Debug, PartialEq, Eq, Hash)]
pub struct Report {
    /// How many lines the page has: those accepted and those refused.
    pub lines: u64,
    /// The lines that [`fen_read`] accepts.
    pub accepted: u64,
    /// The others.
    pub refused: u64,
    /// The men of each kind on the accepted lines, the man with the number `code` of [`Numbers`] at `code - 1`.
    pub men: [u64; KINDS],
    /// The accepted lines that have the [`Numbers`] of an earlier accepted one: three equal lines are two.
    pub repeated: u64,
}

/// The version of the archive that is linked. `build.rs` has refused any other than [`VERSION`](crate::VERSION).
///
/// ```
/// assert_eq!(menkhodur::lent::version(), menkhodur::VERSION);
/// ```
#[must_use]
pub fn version() -> u64 {
    ffi::menkhodur_version()
}

/// The number of the square on a rank (0 to 7) and a file (0 to 7). Refused: 5.
///
/// ```
/// use menkhodur::{Error, lent};
///
/// assert_eq!(lent::make_square(3, 4), Ok(28));
/// assert_eq!(lent::make_square(8, 0), Err(Error::OutOfRange));
/// ```
pub fn make_square(rank: u8, file: u8) -> Result<u8, Error> {
    byte(ffi::menkhodur_make_square(rank, file))
}

/// Castling rights with others added: 1 king side, 2 queen side, 3 both. Refused: 5.
///
/// ```
/// assert_eq!(menkhodur::lent::rights_add(1, 2), Ok(3));
/// ```
pub fn rights_add(rights: u8, added: u8) -> Result<u8, Error> {
    byte(ffi::menkhodur_rights_add(rights, added))
}

/// Castling rights with others removed. Refused: 5.
///
/// ```
/// assert_eq!(menkhodur::lent::rights_remove(3, 1), Ok(2));
/// ```
pub fn rights_remove(rights: u8, removed: u8) -> Result<u8, Error> {
    byte(ffi::menkhodur_rights_remove(rights, removed))
}

/// The rights that a colour (0 or 1) loses when something moves from or to a square (0 to 63). Refused: 5.
///
/// ```
/// assert_eq!(menkhodur::lent::square_rights(0, 4), Ok(3));
/// assert_eq!(menkhodur::lent::square_rights(1, 4), Ok(0));
/// ```
pub fn square_rights(colour: u8, square: u8) -> Result<u8, Error> {
    byte(ffi::menkhodur_square_rights(colour, square))
}

/// The record with a piece (1 to 12) on a square. Refused: 5, also for a record that is out of range itself.
///
/// ```
/// use menkhodur::{Error, lent};
///
/// let record = lent::piece(&[0; 68].into(), 63, 12).unwrap();
/// assert_eq!(record.numbers[63], 12);
/// assert_eq!(lent::piece(&record, 63, 0), Err(Error::OutOfRange));
/// ```
pub fn piece(record: &Record, square: u8, code: u8) -> Result<Record, Error> {
    ffi::menkhodur_piece(ffi::Board::of(record), square, code).judged()
}

/// The record with a square empty. Refused: 5, also for a record that is out of range itself.
///
/// ```
/// use menkhodur::lent;
///
/// let king = lent::fen_read(b"7k w - -").unwrap();
/// assert_eq!(king.numbers[63], 12);
/// assert_eq!(lent::clear_square(&king, 63), Ok([0; 68].into()));
/// ```
pub fn clear_square(record: &Record, square: u8) -> Result<Record, Error> {
    ffi::menkhodur_clear_square(ffi::Board::of(record), square).judged()
}

/// The record with a side (0 or 1) to move. Refused: 5, also for a record that is out of range itself.
///
/// ```
/// assert_eq!(menkhodur::lent::side_to_move(&[0; 68].into(), 1).unwrap().numbers[64], 1);
/// ```
pub fn side_to_move(record: &Record, colour: u8) -> Result<Record, Error> {
    ffi::menkhodur_side_to_move(ffi::Board::of(record), colour).judged()
}

/// The record with a colour's rights (0 to 3). Refused: 5, also for a record that is out of range itself.
///
/// ```
/// assert_eq!(menkhodur::lent::castle_rights(&[0; 68].into(), 1, 3).unwrap().numbers[64..], [0, 0, 3, 0]);
/// ```
pub fn castle_rights(record: &Record, colour: u8, rights: u8) -> Result<Record, Error> {
    ffi::menkhodur_castle_rights(ffi::Board::of(record), colour, rights).judged()
}

/// The record with an en passant file (1 to 8), or with none (0). Refused: 5, also for a record that is out of range itself.
///
/// ```
/// assert_eq!(menkhodur::lent::en_passant(&[0; 68].into(), 5).unwrap().numbers[67], 5);
/// ```
pub fn en_passant(record: &Record, file: u8) -> Result<Record, Error> {
    ffi::menkhodur_en_passant(ffi::Board::of(record), file).judged()
}

/// The record with a half-move clock (0 to 9,999), the number being judged as it is and never cut. Refused: 5, also for a record that is out
/// of range itself.
///
/// ```
/// use menkhodur::Error;
/// use menkhodur::lent::{self, MAX_COUNT, Record};
///
/// let empty = Record::from([0; 68]);
/// assert_eq!(lent::half_moves(&empty, MAX_COUNT), Ok(Record { half_moves: 9_999, ..empty }));
/// assert_eq!(lent::half_moves(&empty, 65_536), Err(Error::OutOfRange));
/// ```
pub fn half_moves(record: &Record, half_moves: u64) -> Result<Record, Error> {
    ffi::menkhodur_half_moves(ffi::Board::of(record), half_moves).judged()
}

/// The record with a move number (1 to 9,999), the number being judged as it is and never cut. Refused: 5, also for a record that is out of
/// range itself.
///
/// ```
/// use menkhodur::Error;
/// use menkhodur::lent::{self, MAX_COUNT, Record};
///
/// let empty = Record::from([0; 68]);
/// assert_eq!(lent::full_moves(&empty, MAX_COUNT), Ok(Record { full_moves: 9_999, ..empty }));
/// assert_eq!(lent::full_moves(&empty, 0), Err(Error::OutOfRange));
/// ```
pub fn full_moves(record: &Record, full_moves: u64) -> Result<Record, Error> {
    ffi::menkhodur_full_moves(ffi::Board::of(record), full_moves).judged()
}

/// The record after a move (document 02, order 9), which is the one that [`game_make_move`] asks for. For a legal move it is the
/// original's; whether the move is legal is not asked. The counters go on (order 12): the clock is 0 if a pawn stands on the move's source or
/// anything on its destination, and else one more; the move number is one more if the record's side to move is black; both stop at 9,999.
/// Refused: 5 for a record that is out of range, 6 for a number over 28,671.
///
/// ```
/// use menkhodur::{Error, lent};
///
/// let castles = lent::fen_read_full(b"4k3/8/8/8/8/8/8/4K2R w K - 7 20").unwrap();
/// assert_eq!(lent::board_after(&castles, 388), lent::fen_read_full(b"4k3/8/8/8/8/8/8/5RK1 b - - 8 20"));
/// assert_eq!(lent::board_after(&castles, 70_000), Err(Error::ListOutOfRange));
/// ```
pub fn board_after(record: &Record, number: u64) -> Result<Record, Error> {
    ffi::menkhodur_board_after(ffi::Board::of(record), number).judged()
}

/// The settled record: its en passant file is cleared unless a pawn of the side to move stands beside the pawn that moved, on rank 5 with
/// white to move and on rank 4 with black, which is the rule by which the original's `Board` keeps one. Every other number stays, the counters
/// too, and what is settled stays as it is. Refused: 5.
///
/// ```
/// use menkhodur::lent;
///
/// let alone = lent::fen_read_full(b"8/8/8/8/4P3/8/8/8 b - e3 0 20").unwrap();
/// assert_eq!(lent::board_settled(&alone), lent::fen_read_full(b"8/8/8/8/4P3/8/8/8 b - - 0 20"));
/// let beside = lent::fen_read(b"8/8/8/8/3pP3/8/8/8 b - e3").unwrap();
/// assert_eq!(lent::board_settled(&beside), Ok(beside));
/// ```
pub fn board_settled(record: &Record) -> Result<Record, Error> {
    ffi::menkhodur_board_settled(ffi::Board::of(record)).judged()
}

/// The record that a FEN text says, with the counters 0 and 1 whatever stands behind its fourth token. Refused: 18, 19, 20, with the place in
/// the text.
///
/// ```
/// use menkhodur::{Error, lent};
///
/// assert_eq!(lent::fen_read(b" w - - 5 10"), Ok([0; 68].into()));
/// assert_eq!(lent::fen_read(&[255]), Err(Error::TooFewTokens { offset: 1 }));
/// ```
pub fn fen_read(text: &[u8]) -> Result<Record, Error> {
    // SAFETY: pointer and length are those of one slice, borrowed for the call, and the function only reads.
    unsafe { ffi::menkhodur_fen_read(text.as_ptr(), text.len()) }.judged()
}

/// Writes the record's key, 25 to [`MAX_FEN`] bytes, and gives its length: the FEN that ends in ` 0 1` whatever the counters are. Two records
/// have one key exactly if they have the same [`Numbers`]. Refused: 5, 7.
///
/// ```
/// use menkhodur::Error;
/// use menkhodur::lent::{self, MAX_FEN, Record};
///
/// let record = Record { numbers: [0; 68], half_moves: 5, full_moves: 10 };
/// let mut room = [0; MAX_FEN];
/// assert_eq!(lent::fen_write(&record, &mut room), Ok(25));
/// assert_eq!(&room[..25], b"8/8/8/8/8/8/8/8 w - - 0 1");
/// assert_eq!(lent::fen_write(&record, &mut [0; 24]), Err(Error::OutputTooShort { needed: 25 }));
/// ```
pub fn fen_write(record: &Record, out: &mut [u8]) -> Result<usize, Error> {
    // SAFETY: pointer and length are those of one slice, borrowed mutably for the call; nothing else that is passed points into it.
    length(unsafe { ffi::menkhodur_fen_write(ffi::Board::of(record), out.as_mut_ptr(), out.len()) })
}

/// The record that a FEN text says with its counters (document 02, order 12): the fifth token is the half-move clock and the sixth the move
/// number, each of one to four digits; tokens behind the sixth are ignored. Refused: 18, 19, 20 as [`fen_read`] gives them, then 25 for the
/// fifth token and then for the sixth, with the place in the text.
///
/// ```
/// use menkhodur::Error;
/// use menkhodur::lent::{self, Record};
///
/// assert_eq!(lent::fen_read_full(b" w - - 5 10"), Ok(Record { numbers: [0; 68], half_moves: 5, full_moves: 10 }));
/// assert_eq!(lent::fen_read_full(b" w - - 5 0"), Err(Error::BadCounter { offset: 9 }));
/// assert_eq!(lent::fen_read_full(b" w - -"), Err(Error::BadCounter { offset: 6 }));
/// ```
pub fn fen_read_full(text: &[u8]) -> Result<Record, Error> {
    // SAFETY: pointer and length are those of one slice, borrowed for the call, and the function only reads.
    unsafe { ffi::menkhodur_fen_read_full(text.as_ptr(), text.len()) }.judged()
}

/// Writes the record's one FEN with its own counters, 25 to [`MAX_FULL_FEN`] bytes, and gives its length; [`fen_read_full`] reads it as
/// exactly this record. Refused: 5, 7.
///
/// ```
/// use menkhodur::Error;
/// use menkhodur::lent::{self, MAX_FULL_FEN, Record};
///
/// let record = Record { numbers: [0; 68], half_moves: 5, full_moves: 10 };
/// let mut room = [0; MAX_FULL_FEN];
/// assert_eq!(lent::fen_write_full(&record, &mut room), Ok(26));
/// assert_eq!(&room[..26], b"8/8/8/8/8/8/8/8 w - - 5 10");
/// assert_eq!(lent::fen_write_full(&record, &mut [0; 25]), Err(Error::OutputTooShort { needed: 26 }));
/// ```
pub fn fen_write_full(record: &Record, out: &mut [u8]) -> Result<usize, Error> {
    // SAFETY: pointer and length are those of one slice, borrowed mutably for the call; nothing else that is passed points into it.
    length(unsafe { ffi::menkhodur_fen_write_full(ffi::Board::of(record), out.as_mut_ptr(), out.len()) })
}

/// Writes the key of a text's settled record, and gives its length: what [`fen_read`] reads, settled by [`board_settled`] and written by
/// [`fen_write`], in one call. A store that files positions under these keys must file none under those of [`fen_write`] beside them.
/// Refused: 18, 19, 20, with the place in the text, then 7.
///
/// ```
/// use menkhodur::lent::{self, MAX_FEN};
/// use menkhodur::Error;
///
/// let mut room = [0; MAX_FEN];
/// assert_eq!(lent::fen_settled(b"8/8/8/8/4P3/8/8/8 b - e3 5 10", &mut room), Ok(27));
/// assert_eq!(&room[..27], b"8/8/8/8/4P3/8/8/8 b - - 0 1");
/// assert_eq!(lent::fen_settled(b"8/8/8/8/3pP3/8/8/8 b - e3", &mut []), Err(Error::OutputTooShort { needed: 29 }));
/// assert_eq!(lent::fen_settled(b"K8 x - -", &mut []), Err(Error::BadSide { offset: 3 }));
/// ```
pub fn fen_settled(text: &[u8], out: &mut [u8]) -> Result<usize, Error> {
    // SAFETY: each pointer and length are those of one slice. The room is borrowed mutably for the call, so that the text cannot lie in it.
    let answer = unsafe { ffi::menkhodur_fen_settled(text.as_ptr(), text.len(), out.as_mut_ptr(), out.len()) };
    answer.judged_written().map(|length| length as usize)
}

/// Reads a page of FEN texts, one per line, and gives the number of lines. Each has the next 68 bytes of `records`, its [`Numbers`], or zeros
/// if it is refused, and the next two of `numbers`, its answer number and its offset from the line's start, as [`fen_read`] gives them for the
/// line alone; what lies behind the last line's is left alone. A newline byte ends a line; an unended last line counts if it has a byte in
/// it. Refused: 7, with the number of lines, if either room is too short. [`Page`](crate::Page) has the same in types.
///
/// ```
/// use menkhodur::{Error, lent};
///
/// let (mut records, mut numbers) = ([9; 137], [9; 5]);
/// assert_eq!(lent::fen_page(b"8/8 w -\nK b - e3", &mut records, &mut numbers), Ok(2));
/// assert_eq!(numbers, [18, 7, 0, 0, 9]);
/// assert_eq!((&records[..68], &records[68 + 56..]), (&[0; 68][..], &[6, 0, 0, 0, 0, 0, 0, 0, 1, 0, 0, 5, 9][..]));
/// assert_eq!(lent::fen_page(b"\n\n", &mut records, &mut numbers[..3]), Err(Error::PageTooShort { lines: 2 }));
/// ```
pub fn fen_page(text: &[u8], records: &mut [u8], numbers: &mut [u64]) -> Result<usize, Error> {
    let (bytes, told) = (records.len(), numbers.len());
    // SAFETY: each pointer and length are those of one slice, the numbers' of aligned `u64`. Both rooms are borrowed mutably for the call,
    // so that they overlap neither each other nor the text.
    let answer = unsafe { ffi::menkhodur_fen_page(text.as_ptr(), text.len(), records.as_mut_ptr(), bytes, numbers.as_mut_ptr(), told) };
    answer.judged_page().map(|lines| lines as usize)
}

/// Reads a page of FEN texts as [`fen_page`] does, for at most [`REPORT_LINES`] lines, and counts over what was read. Both rooms are then as
/// [`fen_page`] leaves them. Refused: 13 for more lines, then 7, with the number of lines, if either room is too short.
/// [`PageReader::report`](crate::PageReader::report) gives the same in types.
///
/// ```
/// use menkhodur::Error;
/// use menkhodur::lent::{self, Report};
///
/// let (mut records, mut numbers) = ([0; 3 * 68], [0; 3 * 2]);
/// let report = lent::fen_report(b"PPk w - -\n9 w - -\nPPk w - - 7 20\n", &mut records, &mut numbers);
/// let men = [4, 0, 0, 0, 0, 0, 0, 0, 0, 0, 0, 2];
/// assert_eq!(report, Ok(Report { lines: 3, accepted: 2, refused: 1, men, repeated: 1 }));
/// assert_eq!(numbers, [0, 0, 19, 0, 0, 0]);
/// assert_eq!(lent::fen_report(b"\n\n", &mut records, &mut numbers[..3]), Err(Error::PageTooShort { lines: 2 }));
/// assert_eq!(lent::fen_report(&[b'\n'; 4_097], &mut [], &mut []), Err(Error::PageTooLong));
/// ```
pub fn fen_report(text: &[u8], records: &mut [u8], numbers: &mut [u64]) -> Result<Report, Error> {
    let (bytes, told) = (records.len(), numbers.len());
    // SAFETY: each pointer and length are those of one slice, the numbers' of aligned `u64`. Both rooms are borrowed mutably for the call,
    // so that they overlap neither each other nor the text.
    unsafe { ffi::menkhodur_fen_report(text.as_ptr(), text.len(), records.as_mut_ptr(), bytes, numbers.as_mut_ptr(), told) }.judged()
}

/// The number of the move that a coordinate text says. Refused: 2, 3, with the place in the text.
///
/// ```
/// use menkhodur::{Error, lent};
///
/// assert_eq!(lent::move_read(b"e2e4q"), Ok(22_284));
/// assert_eq!(lent::move_read(b"e2e9"), Err(Error::InvalidSquare { offset: 3 }));
/// ```
pub fn move_read(text: &[u8]) -> Result<u16, Error> {
    // SAFETY: pointer and length are those of one slice, borrowed for the call, and the function only reads.
    placed_number(unsafe { ffi::menkhodur_move_read(text.as_ptr(), text.len()) })
}

/// Writes a move in coordinates, 4 or 5 bytes, and gives the length. Refused: 6 for a number over 28,671, 7.
///
/// ```
/// use menkhodur::{Error, lent};
///
/// let mut room = [0; 5];
/// assert_eq!(lent::move_write(22_284, &mut room), Ok(5));
/// assert_eq!(&room, b"e2e4q");
/// assert_eq!(lent::move_write(70_000, &mut room), Err(Error::ListOutOfRange));
/// ```
pub fn move_write(number: u64, out: &mut [u8]) -> Result<usize, Error> {
    // SAFETY: pointer and length are those of one slice, borrowed mutably for the call, and nothing else is passed that points anywhere.
    length(unsafe { ffi::menkhodur_move_write(number, out.as_mut_ptr(), out.len()) })
}

/// The number of the one listed move that a SAN text names. Refused: 5, 6, 4.
///
/// ```
/// use menkhodur::{Error, lent};
///
/// let knight = lent::fen_read(b"8/8/8/8/8/8/8/1N6 w - -").unwrap();
/// assert_eq!(lent::san_read(&knight, &[1153], b"Nc3+?!"), Ok(1153));
/// assert_eq!(lent::san_read(&knight, &[1153], b"Nc3x"), Err(Error::InvalidSanMove));
/// ```
pub fn san_read(record: &Record, list: &[u16], text: &[u8]) -> Result<u16, Error> {
    // SAFETY: each pointer and length are those of one slice, borrowed for the call, the list's of aligned `u16`; the function only reads.
    number(unsafe { ffi::menkhodur_san_read(ffi::Board::of(record), list.as_ptr(), list.len(), text.as_ptr(), text.len()) })
}

/// Writes the SAN name of a listed move, 2 to 11 bytes, and gives its length. Refused: 5, 6, 11, 8, 7.
///
/// ```
/// use menkhodur::{Error, lent};
///
/// let knight = lent::fen_read(b"8/8/8/8/8/8/8/1N6 w - -").unwrap();
/// let mut room = [0; 11];
/// assert_eq!(lent::san_name(&knight, &[1153], 1153, &mut room), Ok(3));
/// assert_eq!(&room[..3], b"Nc3");
/// assert_eq!(lent::san_name(&knight, &[1153], 70_000, &mut room), Err(Error::MoveNotListed));
/// ```
pub fn san_name(record: &Record, list: &[u16], number: u64, out: &mut [u8]) -> Result<usize, Error> {
    let (entries, room) = (list.len(), out.len());
    // SAFETY: each pointer and length are those of one slice, the list's of aligned `u16`. The room is borrowed mutably for the call, so
    // that the list cannot lie in it.
    length(unsafe { ffi::menkhodur_san_name(ffi::Board::of(record), list.as_ptr(), entries, number, out.as_mut_ptr(), room) })
}

/// The number of the one listed move that a SAN text in the form of the PGN standard names. Refused: 5, 6, 4.
///
/// ```
/// use menkhodur::{Error, lent};
///
/// let pawn = lent::fen_read(b"8/4P3/8/8/8/8/8/8 w - -").unwrap();
/// assert_eq!(lent::san_read_standard(&pawn, &[24_372], b"e8=Q+"), Ok(24_372));
/// assert_eq!(lent::san_read_standard(&pawn, &[24_372], b"e8Q"), Err(Error::InvalidSanMove));
/// ```
pub fn san_read_standard(record: &Record, list: &[u16], text: &[u8]) -> Result<u16, Error> {
    // SAFETY: each pointer and length are those of one slice, borrowed for the call, the list's of aligned `u16`; the function only reads.
    number(unsafe { ffi::menkhodur_san_read_standard(ffi::Board::of(record), list.as_ptr(), list.len(), text.as_ptr(), text.len()) })
}

/// Writes the SAN name of a listed move in the form of the PGN standard, 2 to 8 bytes, and gives its length. Refused: 5, 6, 11, 8, 7.
///
/// ```
/// use menkhodur::{Error, lent};
///
/// let pawn = lent::fen_read(b"8/8/8/4P3/8/8/8/8 w - -").unwrap();
/// let mut room = [0; 8];
/// assert_eq!(lent::san_name_standard(&pawn, &[2788], 2788, &mut room), Ok(4));
/// assert_eq!(&room[..4], b"exd6");
/// assert_eq!(lent::san_name_standard(&pawn, &[2788], 70_000, &mut room), Err(Error::MoveNotListed));
/// ```
pub fn san_name_standard(record: &Record, list: &[u16], number: u64, out: &mut [u8]) -> Result<usize, Error> {
    let (entries, room) = (list.len(), out.len());
    // SAFETY: each pointer and length are those of one slice, the list's of aligned `u16`. The room is borrowed mutably for the call, so
    // that the list cannot lie in it.
    length(unsafe { ffi::menkhodur_san_name_standard(ffi::Board::of(record), list.as_ptr(), entries, number, out.as_mut_ptr(), room) })
}

/// Whether the side to move is in check, by the Laws: one of its kings is attacked. Refused: 5.
///
/// ```
/// use menkhodur::lent;
///
/// let attacked = lent::fen_read(b"4r3/8/8/8/8/8/8/4K3 w - -").unwrap();
/// assert_eq!(lent::in_check(&attacked), Ok(true));
/// assert_eq!(lent::in_check(&lent::side_to_move(&attacked, 1).unwrap()), Ok(false));
/// ```
pub fn in_check(record: &Record) -> Result<bool, Error> {
    Ok(ffi::menkhodur_in_check(ffi::Board::of(record)).judged()? == 1)
}

/// Writes the legal moves (FIDE Laws, articles 3.1 to 3.10) in rising order of their numbers, and gives how many there are;
/// [`MAX_LIST`] is never too little room. It takes tens of microseconds. Refused: 5, 6 for more than 255 legal moves, 7 with the number of
/// moves.
///
/// ```
/// use menkhodur::{Error, lent};
///
/// let cornered = lent::fen_read(b"8/8/8/8/8/2r5/8/K7 w - -").unwrap();
/// let mut room = [0; 4];
/// // a1b1, a1a2 and a1b2.
/// assert_eq!(lent::legal_list(&cornered, &mut room), Ok(3));
/// assert_eq!(room, [64, 512, 576, 0]);
/// assert_eq!(lent::legal_list(&cornered, &mut room[..2]), Err(Error::ListTooShort { moves: 3 }));
/// ```
pub fn legal_list(record: &Record, out: &mut [u16]) -> Result<usize, Error> {
    // SAFETY: pointer and length are those of one slice of aligned `u16`, borrowed mutably for the call, and nothing else is passed that
    // points anywhere.
    let answer = unsafe { ffi::menkhodur_legal_list(ffi::Board::of(record), out.as_mut_ptr(), out.len()) };
    answer.judged_list().map(|moves| moves as usize)
}

/// Judges a list and an in-check byte as they are lent to a log: what is owed, and the first thing that is wrong. Refused: 5 for the record
/// or the byte, 6 for the list or for more than 255 legal moves.
///
/// ```
/// use menkhodur::lent::{self, Given, Judged};
///
/// let cornered = lent::fen_read(b"8/8/8/8/8/2r5/8/K7 w - -").unwrap();
/// let judged = |in_check: u8, list: &[u16]| lent::list_judged(Given { record: &cornered, in_check, list }).unwrap();
/// let right = Judged { in_check: 0, entries: 3, wrong: 0, named: 0 };
/// assert_eq!(judged(0, &[576, 64, 512]), right);
/// assert_eq!(judged(0, &[576, 128, 512]), Judged { wrong: 1, named: 128, ..right });
/// assert_eq!(judged(0, &[576, 576, 512]), Judged { wrong: 2, named: 576, ..right });
/// assert_eq!(judged(1, &[576]), Judged { wrong: 3, named: 64, ..right });
/// assert_eq!(judged(1, &[576, 64, 512]), Judged { wrong: 4, named: 0, ..right });
/// ```
pub fn list_judged(given: Given<'_>) -> Result<Judged, Error> {
    let (board, list) = (ffi::Board::of(given.record), given.list);
    // SAFETY: pointer and length are those of one slice of aligned `u16`, borrowed for the call, and the function only reads.
    unsafe { ffi::menkhodur_list_judged(board, given.in_check, list.as_ptr(), list.len()) }.judged()
}

/// Starts a log at a position, which is written over the first of its part, and gives the counts, 0 and 0. The part of the actions is
/// only looked at for its length. Refused: 16, 5, 6.
///
/// ```
/// use menkhodur::lent::{self, ACTIONS_PART, Counts, Given, POSITIONS_PART};
///
/// let actions = vec![0; ACTIONS_PART];
/// let mut positions = vec![0; POSITIONS_PART];
/// let start = lent::fen_read_full(b" w - - 258 3").unwrap();
/// let start = Given { record: &start, in_check: 0, list: &[1153] };
/// assert_eq!(lent::game_start(&actions, &mut positions, start), Ok(Counts { actions: 0, moves: 0 }));
/// // The two counters, the in-check byte, the length of the list, and the move.
/// assert_eq!(positions[68..76], [2, 1, 3, 0, 0, 1, 129, 4]);
/// ```
pub fn game_start(actions: &[u8], positions: &mut [u8], start: Given<'_>) -> Result<Counts, Error> {
    let board = ffi::Board::of(start.record);
    let (part, room, entries) = (positions.as_mut_ptr(), positions.len(), start.list.len());
    // SAFETY: each pointer and length are those of one slice, the list's of aligned `u16`. The positions, all that is written, are
    // borrowed mutably for the call, so that neither the actions nor the list can lie in them.
    unsafe { ffi::menkhodur_game_start(actions.as_ptr(), actions.len(), part, room, board, start.in_check, start.list.as_ptr(), entries) }
        .judged()
}

/// Makes a move of the last position's list and stores the position after it, whose record is the one that [`board_after`] gives; gives the
/// new counts. Refused: 16, 9, 10, 11, 5, 6, 12, 24, 13.
///
/// ```
/// use menkhodur::Error;
/// use menkhodur::lent::{self, ACTIONS_PART, Counts, Given, POSITIONS_PART};
///
/// let (mut actions, mut positions) = (vec![0; ACTIONS_PART], vec![0; POSITIONS_PART]);
/// let start = lent::fen_read(b"8/8/8/8/8/8/8/1N6 w - -").unwrap();
/// let counts = lent::game_start(&actions, &mut positions, Given { record: &start, in_check: 0, list: &[1153] }).unwrap();
/// let other = lent::side_to_move(&start, 1).unwrap();
/// let next = Given { record: &other, in_check: 0, list: &[] };
/// assert_eq!(lent::game_make_move(&mut actions, &mut positions, counts, 1153, next), Err(Error::WrongRecord));
/// let next = Given { record: &lent::board_after(&start, 1153).unwrap(), ..next };
/// let counts = lent::game_make_move(&mut actions, &mut positions, counts, 1153, next).unwrap();
/// assert_eq!(counts, Counts { actions: 1, moves: 1 });
/// assert_eq!(actions[..4], [1, 0, 129, 4]);
/// ```
pub fn game_make_move(actions: &mut [u8], positions: &mut [u8], counts: Counts, number: u64, next: Given<'_>) -> Result<Counts, Error> {
    // SAFETY: each pointer and length are those of one slice, the list's of aligned `u16`. Both parts are borrowed mutably for the call,
    // so that they overlap neither each other nor the list.
    unsafe {
        ffi::menkhodur_game_make_move(
            actions.as_mut_ptr(),
            actions.len(),
            positions.as_mut_ptr(),
            positions.len(),
            counts.actions,
            counts.moves,
            number,
            ffi::Board::of(next.record),
            next.in_check,
            next.list.as_ptr(),
            next.list.len(),
        )
    }
    .judged()
}

/// Offers a draw in a colour's name (0 or 1) and gives the new counts. Refused: 16, 9, 10, 5, 13.
///
/// ```
/// use menkhodur::lent::{self, ACTIONS_PART, Given, POSITIONS_PART};
///
/// let (mut actions, mut positions) = (vec![0; ACTIONS_PART], vec![0; POSITIONS_PART]);
/// let start = Given { record: &[0; 68].into(), in_check: 0, list: &[1153] };
/// let counts = lent::game_start(&actions, &mut positions, start).unwrap();
/// let counts = lent::game_offer_draw(&mut actions, &positions, counts, 1).unwrap();
/// assert_eq!((counts.actions, counts.moves), (1, 0));
/// let counts = lent::game_accept_draw(&mut actions, &positions, counts).unwrap();
/// assert_eq!(lent::game_result(&actions, &positions, counts), Ok(6));
/// ```
pub fn game_offer_draw(actions: &mut [u8], positions: &[u8], counts: Counts, colour: u8) -> Result<Counts, Error> {
    let (n, m) = (counts.actions, counts.moves);
    let (part, room) = (actions.as_mut_ptr(), actions.len());
    // SAFETY: each pointer and length are those of one slice. The actions, all that is written, are borrowed mutably for the call, so that
    // the positions cannot lie in them.
    unsafe { ffi::menkhodur_game_offer_draw(part, room, positions.as_ptr(), positions.len(), n, m, colour) }.judged()
}

/// Resigns in a colour's name (0 or 1) and gives the new counts. Refused: 16, 9, 10, 5, 13.
///
/// ```
/// use menkhodur::lent::{self, ACTIONS_PART, Given, POSITIONS_PART};
///
/// let (mut actions, mut positions) = (vec![0; ACTIONS_PART], vec![0; POSITIONS_PART]);
/// let start = Given { record: &[0; 68].into(), in_check: 0, list: &[1153] };
/// let counts = lent::game_start(&actions, &mut positions, start).unwrap();
/// let counts = lent::game_resign(&mut actions, &positions, counts, 1).unwrap();
/// assert_eq!(lent::game_result(&actions, &positions, counts), Ok(4));
/// ```
pub fn game_resign(actions: &mut [u8], positions: &[u8], counts: Counts, colour: u8) -> Result<Counts, Error> {
    let (n, m) = (counts.actions, counts.moves);
    let (part, room) = (actions.as_mut_ptr(), actions.len());
    // SAFETY: each pointer and length are those of one slice. The actions, all that is written, are borrowed mutably for the call, so that
    // the positions cannot lie in them.
    unsafe { ffi::menkhodur_game_resign(part, room, positions.as_ptr(), positions.len(), n, m, colour) }.judged()
}

/// Accepts the offer that stands and gives the new counts. Refused: 16, 9, 10, 14, 13. [`game_offer_draw`] has an example.
pub fn game_accept_draw(actions: &mut [u8], positions: &[u8], counts: Counts) -> Result<Counts, Error> {
    let (n, m) = (counts.actions, counts.moves);
    let (part, room) = (actions.as_mut_ptr(), actions.len());
    // SAFETY: each pointer and length are those of one slice. The actions, all that is written, are borrowed mutably for the call, so that
    // the positions cannot lie in them.
    unsafe { ffi::menkhodur_game_accept_draw(part, room, positions.as_ptr(), positions.len(), n, m) }.judged()
}

/// Declares a draw on the claim that stands and gives the new counts. Refused: 16, 9, 10, 15, 13.
///
/// ```
/// use menkhodur::Error;
/// use menkhodur::lent::{self, ACTIONS_PART, Given, POSITIONS_PART};
///
/// let (mut actions, mut positions) = (vec![0; ACTIONS_PART], vec![0; POSITIONS_PART]);
/// let start = Given { record: &[0; 68].into(), in_check: 0, list: &[1153] };
/// let counts = lent::game_start(&actions, &mut positions, start).unwrap();
/// assert_eq!(lent::game_can_declare_draw(&actions, &positions, counts), Ok(false));
/// assert_eq!(lent::game_declare_draw(&mut actions, &positions, counts), Err(Error::NoClaim));
/// ```
pub fn game_declare_draw(actions: &mut [u8], positions: &[u8], counts: Counts) -> Result<Counts, Error> {
    let (n, m) = (counts.actions, counts.moves);
    let (part, room) = (actions.as_mut_ptr(), actions.len());
    // SAFETY: each pointer and length are those of one slice. The actions, all that is written, are borrowed mutably for the call, so that
    // the positions cannot lie in them.
    unsafe { ffi::menkhodur_game_declare_draw(part, room, positions.as_ptr(), positions.len(), n, m) }.judged()
}

/// The result: 0 while the game goes on, 1 to 7 in the order of [`GameResult`](crate::GameResult). Refused: 16, 9.
/// [`game_resign`] has an example.
pub fn game_result(actions: &[u8], positions: &[u8], counts: Counts) -> Result<u8, Error> {
    let (n, m) = (counts.actions, counts.moves);
    // SAFETY: each pointer and length are those of one slice, borrowed for the call, and the function only reads.
    byte(unsafe { ffi::menkhodur_game_result(actions.as_ptr(), actions.len(), positions.as_ptr(), positions.len(), n, m) })
}

/// Whether a draw may be declared. Refused: 16, 9. [`game_declare_draw`] has an example.
pub fn game_can_declare_draw(actions: &[u8], positions: &[u8], counts: Counts) -> Result<bool, Error> {
    let (n, m) = (counts.actions, counts.moves);
    // SAFETY: each pointer and length are those of one slice, borrowed for the call, and the function only reads.
    let answer =
        unsafe { ffi::menkhodur_game_can_declare_draw(actions.as_ptr(), actions.len(), positions.as_ptr(), positions.len(), n, m) };
    Ok(answer.judged()? == 1)
}

/// Whether the Laws let a draw be claimed: as [`game_can_declare_draw`], but by the count of article 9.3, which a change of castling rights
/// leaves running. Refused: 16, 9. [`game_ruling`] has an example.
pub fn game_can_claim_by_laws(actions: &[u8], positions: &[u8], counts: Counts) -> Result<bool, Error> {
    let (n, m) = (counts.actions, counts.moves);
    // SAFETY: each pointer and length are those of one slice, borrowed for the call, and the function only reads.
    let answer =
        unsafe { ffi::menkhodur_game_can_claim_by_laws(actions.as_ptr(), actions.len(), positions.as_ptr(), positions.len(), n, m) };
    Ok(answer.judged()? == 1)
}

/// What both rulings on a draw rest on. Refused: 16, 9.
///
/// ```
/// use menkhodur::lent::{self, ACTIONS_PART, Given, POSITIONS_PART, Ruled};
///
/// let (mut actions, mut positions) = (vec![0; ACTIONS_PART], vec![0; POSITIONS_PART]);
/// let start = lent::fen_read(b"8/8/8/8/8/8/8/4K2R w K -").unwrap();
/// let next = lent::fen_read_full(b"8/8/8/8/8/8/8/4K1R1 b - - 1 1").unwrap();
/// let counts = lent::game_start(&actions, &mut positions, Given { record: &start, in_check: 0, list: &[391] }).unwrap();
/// let next = Given { record: &next, in_check: 0, list: &[1153] };
/// let counts = lent::game_make_move(&mut actions, &mut positions, counts, 391, next).unwrap();
///
/// // The rook's move h1g1 has lost a right: that empties document 01's count, and not that of the Laws.
/// let ruled = lent::game_ruling(&actions, &positions, counts).unwrap();
/// assert_eq!(ruled, Ruled { count: 0, laws_count: 1, equals: 0, first: 0, second: 0, claim: 0, laws_claim: 0 });
/// assert_eq!(lent::game_can_claim_by_laws(&actions, &positions, counts), Ok(false));
/// ```
pub fn game_ruling(actions: &[u8], positions: &[u8], counts: Counts) -> Result<Ruled, Error> {
    let (n, m) = (counts.actions, counts.moves);
    // SAFETY: each pointer and length are those of one slice, borrowed for the call, and the function only reads.
    unsafe { ffi::menkhodur_game_ruling(actions.as_ptr(), actions.len(), positions.as_ptr(), positions.len(), n, m) }.judged()
}

/// Writes the roll of a start and of the first `count` actions of a part, 71 to [`MAX_ROLL`] bytes, and gives its length. Refused: 16, 5, 13,
/// 17, 7.
///
/// ```
/// use menkhodur::Error;
/// use menkhodur::lent::{self, ACTIONS_PART, MAX_ROLL, Record};
///
/// let (mut actions, mut room) = (vec![0; ACTIONS_PART], [0; MAX_ROLL]);
/// actions[..8].copy_from_slice(&[1, 0, 12, 7, 5, 1, 0, 0]);
/// let start = Record { numbers: [0; 68], half_moves: 130, full_moves: 20 };
/// assert_eq!(lent::roll_write(&start, &actions, 2, &mut room), Ok(76));
/// assert_eq!(room[..68], [0; 68]);
/// // The clock 130, which is 2 + 128 * 1, and the move number 20.
/// assert_eq!(room[68..71], [128 + 2, 1, 20]);
/// // Two actions: the move 1,804, which is 12 + 128 * 14, and black resigns.
/// assert_eq!(room[71..76], [2, 2, 128 + 12, 14, 11]);
/// assert_eq!(lent::roll_write(&start, &actions, 3, &mut room), Err(Error::BadRoll));
/// ```
pub fn roll_write(record: &Record, actions: &[u8], count: u64, out: &mut [u8]) -> Result<usize, Error> {
    let (board, part, room) = (ffi::Board::of(record), actions.as_ptr(), out.len());
    // SAFETY: each pointer and length are those of one slice. The room, all that is written, is borrowed mutably for the call, so that the
    // actions cannot lie in it.
    length(unsafe { ffi::menkhodur_roll_write(board, part, actions.len(), count, out.as_mut_ptr(), room) })
}

/// Reads a roll: the start and the count are given, and the actions are written to the front of the part. A roll without counters is
/// [`roll_read_old`]'s. Refused: 16, then the first from the left of 5, 13 and 17.
///
/// ```
/// use menkhodur::Error;
/// use menkhodur::lent::{self, ACTIONS_PART, Record};
///
/// let mut roll = vec![0; 68];
/// roll.extend([7, 20, 2, 2, 128 + 12, 14, 11]);
/// let mut actions = vec![0xA5; ACTIONS_PART];
/// let rolled = lent::roll_read(&roll, &mut actions).unwrap();
/// assert_eq!((rolled.record, rolled.actions), (Record { numbers: [0; 68], half_moves: 7, full_moves: 20 }, 2));
/// assert_eq!(actions[..9], [1, 0, 12, 7, 5, 1, 0, 0, 0xA5]);
/// assert_eq!(lent::roll_read(&roll[1..], &mut actions), Err(Error::BadRoll));
/// ```
pub fn roll_read(roll: &[u8], actions: &mut [u8]) -> Result<Rolled, Error> {
    // SAFETY: each pointer and length are those of one slice. The actions, all that is written, are borrowed mutably for the call, so that
    // the roll cannot lie in them.
    unsafe { ffi::menkhodur_roll_read(roll.as_ptr(), roll.len(), actions.as_mut_ptr(), actions.len()) }.judged()
}

/// Reads an old roll, one from before version 12, which has no counters: the start gets 0 and 1. All else is as for [`roll_read`]. Written by
/// [`roll_write`], what it gives is the old roll with the bytes 0 and 1 put in behind its 68th.
///
/// Bytes can be both an old roll and a new one, and then they say two things. So never try one call after the other: a store must know
/// which kind it keeps.
///
/// ```
/// use menkhodur::lent::{self, ACTIONS_PART};
///
/// let both = [&[0; 68][..], &[1, 2, 0]].concat();
/// let mut actions = vec![0; ACTIONS_PART];
/// let old = lent::roll_read_old(&both, &mut actions).unwrap();
/// // One action, the move 0.
/// assert_eq!((old.record, old.actions, &actions[..4]), ([0; 68].into(), 1, &[1, 0, 0, 0][..]));
/// let new = lent::roll_read(&both, &mut actions).unwrap();
/// assert_eq!((new.record.half_moves, new.record.full_moves, new.actions), (1, 2, 0));
/// ```
pub fn roll_read_old(roll: &[u8], actions: &mut [u8]) -> Result<Rolled, Error> {
    // SAFETY: each pointer and length are those of one slice. The actions, all that is written, are borrowed mutably for the call, so that
    // the roll cannot lie in them.
    unsafe { ffi::menkhodur_roll_read_old(roll.as_ptr(), roll.len(), actions.as_mut_ptr(), actions.len()) }.judged()
}

/// Writes what differs between two rolls (document 02, order 10), at most [`MAX_DIFFERENCES`] bytes, and gives the text's length: 0 exactly
/// if the rolls are equal. Refused: 5, 13 or 17 as [`roll_read`] gives it, first roll first, then 7.
///
/// ```
/// use menkhodur::Error;
/// use menkhodur::lent::{self, MAX_DIFFERENCES};
///
/// let plain = [&[0; 68][..], &[0, 1, 0]].concat();
/// let (mut pawn, mut room) = (plain.clone(), [0; MAX_DIFFERENCES]);
/// pawn[28] = 1;
/// assert_eq!(lent::roll_differences(&pawn, &plain, &mut room), Ok(7));
/// assert_eq!(&room[..7], b"28 1 0\n");
/// assert_eq!(lent::roll_differences(&plain, &plain, &mut room), Ok(0));
/// assert_eq!(lent::roll_differences(&pawn, &plain, &mut []), Err(Error::OutputTooShort { needed: 7 }));
/// assert_eq!(lent::roll_differences(&plain, &pawn[..70], &mut room), Err(Error::BadRoll));
/// ```
pub fn roll_differences(first: &[u8], second: &[u8], out: &mut [u8]) -> Result<usize, Error> {
    let (one, other, room) = (first.as_ptr(), second.as_ptr(), out.len());
    // SAFETY: each pointer and length are those of one slice. The room, all that is written, is borrowed mutably for the call, so that no
    // roll can lie in it.
    length(unsafe { ffi::menkhodur_roll_differences(one, first.len(), other, second.len(), out.as_mut_ptr(), room) })
}

/// Checks PGN move text (document 02, order 8) and counts its moves, those of variations among them. Refused, the first from the left: 22, 23;
/// at the end 21.
///
/// ```
/// use menkhodur::{Error, lent};
///
/// assert_eq!(lent::pgn_check(b"1. e4 (1. d4 d5) e5 {good} 1/2-1/2"), Ok(4));
/// assert_eq!(lent::pgn_check(b"1. e4 )"), Err(Error::UnknownToken { offset: 6 }));
/// ```
pub fn pgn_check(text: &[u8]) -> Result<u64, Error> {
    // SAFETY: the pointer and the length are those of one slice, which is only read.
    let count = unsafe { ffi::menkhodur_pgn_check(text.as_ptr(), text.len()) };
    Error::judge(count.number, count.offset)?;
    Ok(count.moves)
}

/// The next move of PGN move text from a place, or that none is left. Refused: 22 for a level over 8, 23 for an offset past the text, then as
/// [`pgn_check`] for what is met before a move.
///
/// ```
/// use menkhodur::lent::{self, MovePart};
///
/// let text = b"e4 (d4) e5";
/// assert_eq!(lent::pgn_next(text, 2, 0), Ok(Some(MovePart { start: 4, length: 2, level: 1, closed: 0, opened: 1 })));
/// assert_eq!(lent::pgn_next(text, 6, 1), Ok(Some(MovePart { start: 8, length: 2, level: 0, closed: 1, opened: 0 })));
/// assert_eq!(lent::pgn_next(text, 10, 0), Ok(None));
/// ```
pub fn pgn_next(text: &[u8], offset: u64, level: u64) -> Result<Option<MovePart>, Error> {
    // SAFETY: the pointer and the length are those of one slice, which is only read.
    let next = unsafe { ffi::menkhodur_pgn_next(text.as_ptr(), text.len(), offset, level) };
    Error::judge(next.number, next.offset)?;
    // A move lies in the text, whose length is a `usize`, and there are at most 8 levels and no more brackets than bytes.
    Ok((next.found == 1).then_some(MovePart {
        start: next.start as usize,
        length: next.length as usize,
        level: next.level,
        closed: next.closed as usize,
        opened: next.opened as usize,
    }))
}

/// One step of a game's main line: the next move outside brackets from an offset outside brackets, read in the form of the PGN standard
/// over the list that the record has, and played; or that none is left. The record after it is that of [`board_after`]; its key, as
/// [`fen_write`] writes it, goes to the front of `out`, for which [`MAX_FEN`] bytes always suffice. Variations are passed over, but what is
/// wrong in one is refused.
///
/// Refused: 23 for an offset past the text; 22, 23, 21 as [`pgn_check`] gives them for what is met before the move; then 5, 6 and 4 as
/// [`san_read_standard`] gives them, with the part of the text that holds the move; then 7.
///
/// ```
/// use menkhodur::lent::{self, MAX_FEN};
/// use menkhodur::{Error, Move};
///
/// let text = b"1. Nf3 (1. Nc3) Nf6 1/2-1/2";
/// let start = lent::fen_read(b"6n1/8/8/8/8/8/8/1N4N1 w - -")?;
/// let (white, black) = (["b1c3", "g1f3"], ["g8f6", "g8h6"]);
/// let list = |moves: [&str; 2]| moves.map(|text| Move::from_text(text).unwrap().number());
/// let mut room = [0; MAX_FEN];
///
/// let first = lent::game_step(text, 0, &start, &list(white), &mut room)?.unwrap();
/// assert_eq!((first.start, first.length, first.played), (3, 3, list(white)[1]));
/// assert_eq!(&room[..first.key], b"6n1/8/8/8/8/5N2/8/1N6 b - - 0 1");
/// let second = lent::game_step(text, 6, &first.record, &list(black), &mut room)?.unwrap();
/// assert_eq!((second.start, second.length, &room[..second.key]), (16, 3, &b"8/8/5n2/8/8/5N2/8/1N6 w - - 0 1"[..]));
/// assert_eq!(lent::game_step(text, 19, &second.record, &[], &mut room)?, None);
/// let refused = lent::game_step(text, 6, &first.record, &list(white), &mut room);
/// assert_eq!(refused, Err(Error::InvalidSanMoveAt { start: 16, length: 3 }));
/// # Ok::<(), Error>(())
/// ```
pub fn game_step(text: &[u8], offset: u64, record: &Record, list: &[u16], out: &mut [u8]) -> Result<Option<Step>, Error> {
    let (board, part, entries) = (ffi::Board::of(record), text.as_ptr(), list.len());
    // SAFETY: each pointer and length are those of one slice, the list's of aligned `u16`. The room, all that is written, is borrowed mutably
    // for the call, so that neither the text nor the list can lie in it.
    unsafe { ffi::menkhodur_game_step(part, text.len(), offset, board, list.as_ptr(), entries, out.as_mut_ptr(), out.len()) }.judged()
}

/// One move text, read in the form of the PGN standard over the list that the record has, and played: what [`san_read_standard`],
/// [`board_after`] and [`fen_write`] give in turn. Who plays variations finds their moves with [`pgn_next`]. Refused: 5, 6, 4, 7.
///
/// ```
/// use menkhodur::lent::{self, MAX_FEN};
/// use menkhodur::Error;
///
/// let knight = lent::fen_read_full(b"8/8/8/8/8/8/8/1N6 w - - 7 20")?;
/// let mut room = [0; MAX_FEN];
/// let step = lent::play(b"Nc3+", &knight, &[1_153], &mut room)?;
/// assert_eq!((step.start, step.length, step.played), (0, 4, 1_153));
/// assert_eq!(Ok(step.record), lent::fen_read_full(b"8/8/8/8/8/2N5/8/8 b - - 8 20"));
/// assert_eq!(&room[..step.key], b"8/8/8/8/8/2N5/8/8 b - - 0 1");
/// assert_eq!(lent::play(b"Nc3", &knight, &[], &mut room), Err(Error::InvalidSanMove));
/// assert_eq!(lent::play(b"Nc3", &knight, &[1_153], &mut []), Err(Error::OutputTooShort { needed: 27 }));
/// # Ok::<(), Error>(())
/// ```
pub fn play(text: &[u8], record: &Record, list: &[u16], out: &mut [u8]) -> Result<Step, Error> {
    let (board, part, entries) = (ffi::Board::of(record), text.as_ptr(), list.len());
    // SAFETY: as for `game_step`.
    let step = unsafe { ffi::menkhodur_play(part, text.len(), board, list.as_ptr(), entries, out.as_mut_ptr(), out.len()) };
    step.judged_alone()
}

// The contracts bound the values: squares to 63, rights to 3, results to 7, moves to 28,671, lengths to those of the longest roll, the lines
// of a page to the bytes of its text. The casts cut nothing.

fn byte(answer: ffi::Answer) -> Result<u8, Error> {
    answer.judged().map(|value| value as u8)
}

fn number(answer: ffi::Answer) -> Result<u16, Error> {
    answer.judged().map(|value| value as u16)
}

fn placed_number(answer: ffi::Placed) -> Result<u16, Error> {
    answer.judged().map(|value| value as u16)
}

fn length(answer: ffi::Answer) -> Result<usize, Error> {
    answer.judged().map(|value| value as usize)
}
