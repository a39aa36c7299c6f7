//! The board record and its texts.

use crate::error::{Error, certain};
use crate::lends::Lent;
use crate::lent::{self, MAX_FEN, MAX_FULL_FEN, Numbers, Record};
use crate::moves::{Move, text_of};
use crate::piece::{ALL_COLORS, ALL_PIECES, CastleRights, Color, Piece};
use crate::square::{ALL_FILES, File, Square};
use std::fmt;
use std::str::FromStr;

const INITIAL: &str = "rnbqkbnr/pppppppp/8/8/8/8/PPPPPPPP/RNBQKBNR w KQkq - 0 1";

// Where the numbers have what comes after the squares: the side to move, white's rights, then black's, and the en passant file.
const SIDE: usize = 64;
const RIGHTS: usize = 65;
const FILE: usize = 67;

/// A position's record: 64 squares, the side to move, both sides' rights, the en passant file and the two counters of a FEN, every one in
/// range.
///
/// As with the original's `BoardBuilder`, nothing asks whether such a position can come up in a game. The steps take the board and hand
/// back the next one. Boards are ordered by their numbers, the first that differs deciding, so that they can be kept in sorted lists and
/// trees; the order says nothing about the game.
///
/// Two boards are equal if all 70 numbers are, the counters too. Those that differ in the counters alone are one position, with the same
/// [`Board::numbers`] and one key, [`Board::to_fen`].
///
/// ```
/// use menkhodur::{Board, Color, Piece, Square};
///
/// let board = Board::new().piece(Square::B1, Piece::Knight, Color::White).side_to_move(Color::Black);
/// assert_eq!(board.to_fen(), "8/8/8/8/8/8/8/1N6 b - - 0 1");
/// assert_eq!(Board::from_fen("8/8/8/8/8/8/8/1N6 B - e9"), Ok(board));
/// assert!(Board::new() < board);
/// ```
#[derive(Clone, Copy, PartialEq, Eq, PartialOrd, Ord, Hash)]
#[doc(alias = "BoardBuilder")]
pub struct Board(Record);

impl Board {
    /// The empty board, white to move, with the counters 0 and 1.
    ///
    /// ```
    /// assert_eq!(menkhodur::Board::new().to_fen(), "8/8/8/8/8/8/8/8 w - - 0 1");
    /// ```
    // `default` is taken: as in the original it is the initial position.
    #[allow(clippy::new_without_default)]
    #[must_use]
    pub fn new() -> Board {
        Board(Record::from([0; lent::PAGE_RECORD]))
    }

    /// The board that a FEN text says, the text being any bytes, with the counters 0 and 1 whatever stands behind its fourth token;
    /// [`Board::from_fen_full`] reads them. Refused: [`Error::TooFewTokens`], [`Error::BadPlacement`], [`Error::BadSide`], in this order and
    /// each with the place in the text.
    ///
    /// ```
    /// use menkhodur::{Board, Error};
    ///
    /// assert_eq!(Board::from_fen(" w - -"), Ok(Board::new()));
    /// assert_eq!(Board::from_fen(" w - - 12 34"), Ok(Board::new()));
    /// assert_eq!(Board::from_fen(b"K\xff w - -"), Err(Error::BadPlacement { offset: 1 }));
    /// ```
    pub fn from_fen(text: impl AsRef<[u8]>) -> Result<Board, Error> {
        lent::fen_read(text.as_ref()).map(Board)
    }

    /// The position's one FEN, 25 to 85 bytes: the key that it is filed under. It ends in ` 0 1` whatever the counters are.
    ///
    /// ```
    /// use menkhodur::Board;
    ///
    /// let key = "rnbqkbnr/pppppppp/8/8/8/8/PPPPPPPP/RNBQKBNR w KQkq - 0 1";
    /// assert_eq!(Board::default().to_fen(), key);
    /// ```
    #[must_use]
    pub fn to_fen(&self) -> String {
        let mut room = [0; MAX_FEN];
        let length = certain(lent::fen_write(&self.0, &mut room));
        text_of(&room[..length])
    }

    /// The board that a FEN text says with its counters, the text being any bytes: the fifth token is the half-move clock and the sixth the
    /// move number, each of one to four digits; tokens behind the sixth are ignored. Refused: [`Error::TooFewTokens`],
    /// [`Error::BadPlacement`], [`Error::BadSide`] as for [`Board::from_fen`], then [`Error::BadCounter`] for the fifth token and then for
    /// the sixth.
    ///
    /// ```
    /// use menkhodur::{Board, Error};
    ///
    /// let board = Board::from_fen_full(" w - - 12 34").unwrap();
    /// assert_eq!((board.get_half_moves(), board.get_full_moves()), (12, 34));
    /// assert_eq!(Board::from_fen_full(" w - - 12 0"), Err(Error::BadCounter { offset: 10 }));
    /// assert_eq!(Board::from_fen_full(" w - - 12"), Err(Error::BadCounter { offset: 9 }));
    /// ```
    pub fn from_fen_full(text: impl AsRef<[u8]>) -> Result<Board, Error> {
        lent::fen_read_full(text.as_ref()).map(Board)
    }

    /// The board's one FEN with its own counters, 25 to 91 bytes, which [`Board::from_fen_full`] reads as exactly this board.
    ///
    /// ```
    /// use menkhodur::Board;
    ///
    /// let board = Board::new().half_moves(12).unwrap().full_moves(34).unwrap();
    /// assert_eq!(board.to_fen_full(), "8/8/8/8/8/8/8/8 w - - 12 34");
    /// assert_eq!(board.to_fen(), "8/8/8/8/8/8/8/8 w - - 0 1");
    /// ```
    #[must_use]
    pub fn to_fen_full(&self) -> String {
        let mut room = [0; MAX_FULL_FEN];
        let length = certain(lent::fen_write_full(&self.0, &mut room));
        text_of(&room[..length])
    }

    /// The board with these 68 numbers, in the order of [`lent::Numbers`], and the counters 0 and 1. Refused: [`Error::OutOfRange`].
    ///
    /// ```
    /// use menkhodur::{Board, Error};
    ///
    /// assert_eq!(Board::from_numbers(&[0; 68]), Ok(Board::new()));
    /// assert_eq!(Board::from_numbers(&[13; 68]), Err(Error::OutOfRange));
    /// ```
    pub fn from_numbers(numbers: &Numbers) -> Result<Board, Error> {
        Board::from_record(&Record::from(*numbers))
    }

    /// The board with the numbers of a record, its counters too. Refused: [`Error::OutOfRange`].
    ///
    /// ```
    /// use menkhodur::lent::Record;
    /// use menkhodur::{Board, Error};
    ///
    /// let record = Record { numbers: [0; 68], half_moves: 12, full_moves: 34 };
    /// assert_eq!(Board::from_record(&record), Board::from_fen_full(" w - - 12 34"));
    /// assert_eq!(Board::from_record(&Record { full_moves: 0, ..record }), Err(Error::OutOfRange));
    /// ```
    pub fn from_record(record: &Record) -> Result<Board, Error> {
        // A step judges its whole record, so the range is asked of the archive and not said here again; this one changes nothing.
        lent::side_to_move(record, record.numbers[SIDE]).map(Board)
    }

    /// The board's 68 numbers, which are all but the counters: what its key names.
    ///
    /// ```
    /// assert_eq!(menkhodur::Board::default().numbers()[..5], [4, 2, 3, 5, 6]);
    /// ```
    #[must_use]
    pub fn numbers(&self) -> &Numbers {
        &self.0.numbers
    }

    /// The board's record, as [`lent`] has it.
    ///
    /// ```
    /// use menkhodur::{Board, lent};
    ///
    /// let board = Board::default();
    /// assert_eq!(board.record(), &lent::Record::from(*board.numbers()));
    /// assert_eq!(lent::full_moves(board.record(), 40).unwrap().full_moves, 40);
    /// ```
    #[must_use]
    pub fn record(&self) -> &Record {
        &self.0
    }

    /// Puts a piece on a square, in place of what stood there.
    ///
    /// ```
    /// use menkhodur::{Board, Color, Piece, Square};
    ///
    /// let board = Board::new().piece(Square::A8, Piece::Rook, Color::Black);
    /// assert_eq!(board.piece_on(Square::A8), Some(Piece::Rook));
    /// ```
    #[must_use = "a step leaves its board as it is and hands back the next one"]
    pub fn piece(self, square: Square, piece: Piece, color: Color) -> Board {
        let code = 1 + piece as u8 + 6 * color as u8;
        Board(certain(lent::piece(&self.0, square.to_int(), code)))
    }

    /// Takes away what stands on a square.
    ///
    /// ```
    /// use menkhodur::{Board, Square};
    ///
    /// assert_eq!(Board::default().clear_square(Square::A1).piece_on(Square::A1), None);
    /// ```
    #[must_use = "a step leaves its board as it is and hands back the next one"]
    pub fn clear_square(self, square: Square) -> Board {
        Board(certain(lent::clear_square(&self.0, square.to_int())))
    }

    /// Sets the side to move.
    ///
    /// ```
    /// use menkhodur::{Board, Color};
    ///
    /// assert_eq!(Board::new().side_to_move(Color::Black).get_side_to_move(), Color::Black);
    /// ```
    #[must_use = "a step leaves its board as it is and hands back the next one"]
    pub fn side_to_move(self, color: Color) -> Board {
        Board(certain(lent::side_to_move(&self.0, color as u8)))
    }

    /// Sets a colour's castling rights.
    ///
    /// ```
    /// use menkhodur::{Board, CastleRights, Color};
    ///
    /// let board = Board::new().castle_rights(Color::Black, CastleRights::QueenSide);
    /// assert_eq!(board.to_fen(), "8/8/8/8/8/8/8/8 w q - 0 1");
    /// ```
    #[must_use = "a step leaves its board as it is and hands back the next one"]
    pub fn castle_rights(self, color: Color, rights: CastleRights) -> Board {
        Board(certain(lent::castle_rights(&self.0, color as u8, rights as u8)))
    }

    /// Sets the en passant file, or none.
    ///
    /// ```
    /// use menkhodur::{Board, File};
    ///
    /// let board = Board::new().en_passant(Some(File::E));
    /// assert_eq!(board.to_fen(), "8/8/8/8/8/8/8/8 w - e6 0 1");
    /// assert_eq!(board.en_passant(None), Board::new());
    /// ```
    #[must_use = "a step leaves its board as it is and hands back the next one"]
    pub fn en_passant(self, file: Option<File>) -> Board {
        Board(certain(lent::en_passant(&self.0, file.map_or(0, |file| file as u8 + 1))))
    }

    /// Sets the half-move clock, 0 to 9,999: how many moves of either side there were since the last capture or pawn move. The number is judged
    /// as it is and never cut. Refused: [`Error::OutOfRange`].
    ///
    /// ```
    /// use menkhodur::{Board, Error};
    ///
    /// assert_eq!(Board::new().half_moves(9_999).unwrap().get_half_moves(), 9_999);
    /// assert_eq!(Board::new().half_moves(10_000), Err(Error::OutOfRange));
    /// ```
    pub fn half_moves(self, half_moves: u64) -> Result<Board, Error> {
        lent::half_moves(&self.0, half_moves).map(Board)
    }

    /// Sets the move number, 1 to 9,999, which is one more after each move by black. The number is judged as it is and never cut. Refused:
    /// [`Error::OutOfRange`].
    ///
    /// ```
    /// use menkhodur::{Board, Error};
    ///
    /// assert_eq!(Board::new().full_moves(9_999).unwrap().get_full_moves(), 9_999);
    /// assert_eq!(Board::new().full_moves(0), Err(Error::OutOfRange));
    /// ```
    pub fn full_moves(self, full_moves: u64) -> Result<Board, Error> {
        lent::full_moves(&self.0, full_moves).map(Board)
    }

    /// The board after a move: the man moved or promoted, the rook in castling, the pawn gone in en passant, castling rights that are lost,
    /// the other side to move, and the en passant file if a double step arrives beside an enemy pawn (document 02, order 9). For a legal
    /// move it is the original's `make_move_new`; any other goes by the same rule, and whether one is legal is not asked.
    ///
    /// The counters go on too (order 12): the clock is 0 if a pawn stands on the source or anything on the destination, and else one more; the
    /// move number is one more if black was to move. Both stop at 9,999.
    ///
    /// ```
    /// use menkhodur::{Board, Move, Square};
    ///
    /// let board = Board::from_fen_full("r3k3/8/8/8/3p4/8/4P3/4K2R w Kq - 7 20").unwrap();
    /// let after = |text: &str| board.after(Move::from_text(text).unwrap()).to_fen_full();
    /// assert_eq!(after("e1g1"), "r3k3/8/8/8/3p4/8/4P3/5RK1 b q - 8 20");
    /// assert_eq!(after("e2e4"), "r3k3/8/8/8/3pP3/8/8/4K2R b Kq e3 0 20");
    /// assert_eq!(board.after(Move::new(Square::E2, Square::E3, None)).after(Move::new(Square::D4, Square::E3, None)).to_fen_full(),
    ///     "r3k3/8/8/8/8/4p3/8/4K2R w Kq - 0 21");
    /// ```
    #[must_use = "a step leaves its board as it is and hands back the next one"]
    #[doc(alias = "make_move_new")]
    pub fn after(self, chess_move: Move) -> Board {
        Board(certain(lent::board_after(&self.0, u64::from(chess_move.number()))))
    }

    /// The settled board: its en passant file is cleared unless a pawn of the side to move stands beside the pawn that moved, on rank 5 with
    /// white to move and on rank 4 with black. That is the rule by which the original's `Board` keeps a file; many programs write one after
    /// every double step, and then two boards are one position. Every other number stays, the counters too. The board after a legal move is
    /// settled, and so is a settled one.
    ///
    /// ```
    /// use menkhodur::Board;
    ///
    /// let settled = |text: &str| Board::from_fen_full(text).unwrap().settled().to_fen_full();
    /// assert_eq!(settled("8/8/8/8/4P3/8/8/8 b - e3 0 20"), "8/8/8/8/4P3/8/8/8 b - - 0 20");
    /// assert_eq!(settled("8/8/8/8/3pP3/8/8/8 b - e3 0 20"), "8/8/8/8/3pP3/8/8/8 b - e3 0 20");
    /// ```
    #[must_use = "a step leaves its board as it is and hands back the next one"]
    pub fn settled(self) -> Board {
        Board(certain(lent::board_settled(&self.0)))
    }

    /// The key of a text's settled board, the text being any bytes: what [`Board::from_fen`], [`Board::settled`] and [`Board::to_fen`] give, in
    /// one call. A store files under these keys or under those of [`Board::to_fen`], never under both. Refused as [`Board::from_fen`] refuses.
    ///
    /// ```
    /// use menkhodur::{Board, Error};
    ///
    /// assert_eq!(Board::settled_key("8/8/8/8/4P3/8/8/8 b - e3 7 20").unwrap(), "8/8/8/8/4P3/8/8/8 b - - 0 1");
    /// assert_eq!(Board::settled_key(b"K\xff w - -"), Err(Error::BadPlacement { offset: 1 }));
    /// ```
    pub fn settled_key(text: impl AsRef<[u8]>) -> Result<String, Error> {
        let mut room = [0; MAX_FEN];
        let length = lent::fen_settled(text.as_ref(), &mut room)?;
        Ok(text_of(&room[..length]))
    }

    /// Whether the side to move is in check, by the Laws: one of its kings is attacked. A side without a king never is.
    ///
    /// ```
    /// use menkhodur::{Board, Color};
    ///
    /// let board = Board::from_fen("4r3/8/8/8/8/8/8/4K3 w - -").unwrap();
    /// assert!(board.in_check());
    /// assert!(!board.side_to_move(Color::Black).in_check());
    /// ```
    #[must_use]
    pub fn in_check(&self) -> bool {
        certain(lent::in_check(&self.0))
    }

    /// The legal moves by articles 3.1 to 3.10 of the Laws, in rising order of their numbers; `legal_moves()?.moves()` is the list as
    /// [`Board::name`] and [`Position`](crate::Position) take it. Over it every legal move has a name, in either form. It takes tens of
    /// microseconds. Refused: [`Error::ListOutOfRange`] for more than 255 of them, which no game comes to.
    ///
    /// ```
    /// use menkhodur::{Board, Error};
    ///
    /// let board = Board::from_fen("r3k3/8/8/8/8/8/8/4K2R w Kq -")?;
    /// let legal = board.legal_moves()?;
    /// let castles = board.read_san_standard(legal.moves(), "O-O")?;
    /// assert_eq!(board.name_standard(legal.moves(), castles)?, "O-O");
    /// assert_eq!((Board::default().legal_moves()?.len(), Board::new().legal_moves()?.len()), (20, 0));
    /// # Ok::<(), Error>(())
    /// ```
    #[doc(alias = "MoveGen")]
    pub fn legal_moves(&self) -> Result<Lent, Error> {
        let mut list = Lent::new();
        list.make(|room| lent::legal_list(&self.0, room)).map(|()| list)
    }

    /// The kind of piece on a square.
    ///
    /// ```
    /// use menkhodur::{Board, Piece, Square};
    ///
    /// assert_eq!(Board::default().piece_on(Square::D8), Some(Piece::Queen));
    /// ```
    #[must_use]
    pub fn piece_on(&self, square: Square) -> Option<Piece> {
        self.index_on(square).map(|index| ALL_PIECES[index % 6])
    }

    /// The colour of the piece on a square.
    ///
    /// ```
    /// use menkhodur::{Board, Color, Square};
    ///
    /// assert_eq!(Board::default().color_on(Square::D8), Some(Color::Black));
    /// assert_eq!(Board::default().color_on(Square::D4), None);
    /// ```
    #[must_use]
    pub fn color_on(&self, square: Square) -> Option<Color> {
        self.index_on(square).map(|index| ALL_COLORS[index / 6])
    }

    fn index_on(&self, square: Square) -> Option<usize> {
        usize::from(self.numbers()[square.to_index()]).checked_sub(1)
    }

    /// The side to move.
    ///
    /// ```
    /// use menkhodur::{Board, Color};
    ///
    /// assert_eq!(Board::default().get_side_to_move(), Color::White);
    /// ```
    #[must_use]
    pub fn get_side_to_move(&self) -> Color {
        ALL_COLORS[usize::from(self.numbers()[SIDE])]
    }

    /// A colour's castling rights.
    ///
    /// ```
    /// use menkhodur::{Board, CastleRights, Color};
    ///
    /// assert_eq!(Board::default().get_castle_rights(Color::Black), CastleRights::Both);
    /// ```
    #[must_use]
    pub fn get_castle_rights(&self, color: Color) -> CastleRights {
        CastleRights::numbered(self.numbers()[RIGHTS + color.to_index()])
    }

    /// The en passant file. The original's `get_en_passant` gives a square on the pawn's own rank, which a FEN does not have.
    ///
    /// ```
    /// use menkhodur::{Board, File};
    ///
    /// assert_eq!(Board::from_fen(" b - d3").unwrap().en_passant_file(), Some(File::D));
    /// assert_eq!(Board::default().en_passant_file(), None);
    /// ```
    #[must_use]
    pub fn en_passant_file(&self) -> Option<File> {
        usize::from(self.numbers()[FILE]).checked_sub(1).map(|index| ALL_FILES[index])
    }

    /// The half-move clock.
    ///
    /// ```
    /// assert_eq!(menkhodur::Board::from_fen_full(" w - - 12 34").unwrap().get_half_moves(), 12);
    /// ```
    #[must_use]
    pub fn get_half_moves(&self) -> u16 {
        self.0.half_moves
    }

    /// The move number.
    ///
    /// ```
    /// assert_eq!(menkhodur::Board::from_fen_full(" w - - 12 34").unwrap().get_full_moves(), 34);
    /// ```
    #[must_use]
    pub fn get_full_moves(&self) -> u16 {
        self.0.full_moves
    }

    /// The one listed move that a SAN text names, the text being any bytes. Refused: [`Error::ListOutOfRange`] for more than 255 moves,
    /// [`Error::InvalidSanMove`].
    ///
    /// Here and for [`Board::name`], [`Board::read_san_standard`] and [`Board::name_standard`] the order of the list does not matter: the same
    /// moves, each as often, get the same answer. Moves other than the one that a text names can go, and the text still names it; with
    /// moves added, 255 in all at most, it names the same move or is refused with [`Error::InvalidSanMove`].
    ///
    /// ```
    /// use menkhodur::{Board, Error, Move, Square};
    ///
    /// let list = [Move::new(Square::B1, Square::C3, None), Move::new(Square::G1, Square::F3, None)];
    /// assert_eq!(Board::default().read_san(&list, "Nf3"), Ok(list[1]));
    /// assert_eq!(Board::default().read_san(&[list[1], list[0]], "Nf3"), Ok(list[1]));
    /// assert_eq!(Board::default().read_san(&list, "Nd2"), Err(Error::InvalidSanMove));
    /// ```
    pub fn read_san(&self, list: &[Move], text: impl AsRef<[u8]>) -> Result<Move, Error> {
        lent::san_read(&self.0, Move::numbers(list), text.as_ref()).map(Move::of_list)
    }

    /// The SAN name of a listed move, 2 to 11 bytes, which is read as exactly this move. Refused: [`Error::ListOutOfRange`] for more than
    /// 255 moves, [`Error::MoveNotListed`], [`Error::NoName`].
    ///
    /// ```
    /// use menkhodur::{Board, Error, Move, Square};
    ///
    /// let list = [Move::new(Square::B1, Square::C3, None), Move::new(Square::G1, Square::F3, None)];
    /// assert_eq!(Board::default().name(&list, list[1]).unwrap(), "Nf3");
    /// assert_eq!(Board::default().name(&list[..1], list[1]), Err(Error::MoveNotListed));
    /// ```
    pub fn name(&self, list: &[Move], chess_move: Move) -> Result<String, Error> {
        let mut room = [0; 11];
        let length = lent::san_name(&self.0, Move::numbers(list), u64::from(chess_move.number()), &mut room)?;
        Ok(text_of(&room[..length]))
    }

    /// The one listed move that a SAN text in the form of the PGN standard names, the text being any bytes: `e8=Q`, `exd6` for an en passant
    /// capture, `O-O+`. Refused: [`Error::ListOutOfRange`] for more than 255 moves, [`Error::InvalidSanMove`].
    ///
    /// ```
    /// use menkhodur::{Board, Error, Move, Piece, Square};
    ///
    /// let board = Board::from_fen("8/4P3/8/8/8/8/8/8 w - -").unwrap();
    /// let list = [Move::new(Square::E7, Square::E8, Some(Piece::Queen))];
    /// assert_eq!(board.read_san_standard(&list, "e8=Q+"), Ok(list[0]));
    /// assert_eq!(board.read_san_standard(&list, "e8Q"), Err(Error::InvalidSanMove));
    /// ```
    pub fn read_san_standard(&self, list: &[Move], text: impl AsRef<[u8]>) -> Result<Move, Error> {
        lent::san_read_standard(&self.0, Move::numbers(list), text.as_ref()).map(Move::of_list)
    }

    /// The SAN name of a listed move in the form of the PGN standard, 2 to 8 bytes without a check mark, which
    /// [`Board::read_san_standard`] reads as exactly this move. Refused: [`Error::ListOutOfRange`] for more than 255 moves,
    /// [`Error::MoveNotListed`], [`Error::NoName`].
    ///
    /// ```
    /// use menkhodur::{Board, Error, Move, Piece, Square};
    ///
    /// let board = Board::from_fen("8/4P3/8/8/8/8/8/8 w - -").unwrap();
    /// let list = [Move::new(Square::E7, Square::E8, Some(Piece::Queen))];
    /// assert_eq!(board.name_standard(&list, list[0]).unwrap(), "e8=Q");
    /// assert_eq!(board.name_standard(&[], list[0]), Err(Error::MoveNotListed));
    /// ```
    pub fn name_standard(&self, list: &[Move], chess_move: Move) -> Result<String, Error> {
        let mut room = [0; 8];
        let length = lent::san_name_standard(&self.0, Move::numbers(list), u64::from(chess_move.number()), &mut room)?;
        Ok(text_of(&room[..length]))
    }

    pub(crate) fn of_good_log(record: Record) -> Board {
        Board(record)
    }
}

/// The initial position.
///
/// ```
/// assert!(menkhodur::Board::default().to_fen().starts_with("rnbqkbnr/pppppppp/8/8"));
/// ```
impl Default for Board {
    fn default() -> Board {
        certain(Board::from_fen(INITIAL))
    }
}

/// Reads a FEN, as [`Board::from_fen`] does.
impl FromStr for Board {
    type Err = Error;

    fn from_str(text: &str) -> Result<Board, Error> {
        Board::from_fen(text)
    }
}

/// Writes the key, as [`Board::to_fen`] does.
impl fmt::Display for Board {
    fn fmt(&self, f: &mut fmt::Formatter<'_>) -> fmt::Result {
        f.pad(&self.to_fen())
    }
}

impl fmt::Debug for Board {
    fn fmt(&self, f: &mut fmt::Formatter<'_>) -> fmt::Result {
        // With the counters, or else two boards that differ would be shown alike.
        write!(f, "Board({})", self.to_fen_full())
    }
}
