//! The game log: moves, offers, endings and claims.

use crate::board::Board;
use crate::entry::{Actions, POSITION_PAIRS, Position, Positions, bytes, bytes_mut};
use crate::error::{Error, certain};
use crate::lent::{self, ACTION_BYTES, ACTIONS_PART, Counts, MAX_ACTIONS, MAX_MOVES, POSITION_BYTES};
use crate::moves::Move;
use crate::piece::Color;
use crate::roll;
use crate::ruling::Ruling;
use std::fmt;

/// How a game has ended, in the order of document 01's numbers 1 to 7.
///
/// ```
/// use menkhodur::GameResult;
///
/// assert_eq!(GameResult::WhiteCheckmates.number(), 1);
/// assert_eq!(GameResult::DrawDeclared.number(), 7);
/// assert_eq!(GameResult::BlackResigns.to_string(), "black resigns");
/// ```
#[derive(Clone, Copy, Debug, PartialEq, Eq, PartialOrd, Ord, Hash)]
pub enum GameResult {
    /// 1: black is to move, in check and without a move.
    WhiteCheckmates,
    /// 2: white has resigned.
    WhiteResigns,
    /// 3: white is to move, in check and without a move.
    BlackCheckmates,
    /// 4: black has resigned.
    BlackResigns,
    /// 5: the side to move has no move and is not in check.
    Stalemate,
    /// 6: an offered draw was accepted.
    DrawAccepted,
    /// 7: a draw was declared.
    DrawDeclared,
}

const ALL_RESULTS: [GameResult; 7] = [
    GameResult::WhiteCheckmates,
    GameResult::WhiteResigns,
    GameResult::BlackCheckmates,
    GameResult::BlackResigns,
    GameResult::Stalemate,
    GameResult::DrawAccepted,
    GameResult::DrawDeclared,
];

impl GameResult {
    /// The result's number, 1 to 7; 0 is a game that goes on.
    ///
    /// ```
    /// assert_eq!(menkhodur::GameResult::Stalemate.number(), 5);
    /// ```
    #[must_use]
    pub fn number(self) -> u8 {
        self as u8 + 1
    }
}

/// Writes the result in words.
///
/// ```
/// assert_eq!(menkhodur::GameResult::DrawAccepted.to_string(), "draw accepted");
/// ```
impl fmt::Display for GameResult {
    fn fmt(&self, f: &mut fmt::Formatter<'_>) -> fmt::Result {
        f.pad(match self {
            GameResult::WhiteCheckmates => "white checkmates",
            GameResult::WhiteResigns => "white resigns",
            GameResult::BlackCheckmates => "black checkmates",
            GameResult::BlackResigns => "black resigns",
            GameResult::Stalemate => "stalemate",
            GameResult::DrawAccepted => "draw accepted",
            GameResult::DrawDeclared => "draw declared",
        })
    }
}

/// A game from its start: what was done, and each position that came up. A log is always good: some sequence of accepted calls has made
/// it. A refused call leaves it as it was. Each log keeps the two parts whole on the heap, 2,425,416 bytes.
///
/// ```
/// use menkhodur::{Board, Color, Error, GameResult, Log, Move, Position};
///
/// let list = [Move::from_text("b1c3").unwrap()];
/// let mut log = Log::start(&Position { board: Board::default(), in_check: false, list: &list }).unwrap();
///
/// let replies = [Move::from_text("b8c6").unwrap()];
/// log.play(list[0], false, &replies).unwrap();
/// assert_eq!(log.current_position().to_fen_full(), "rnbqkbnr/pppppppp/8/8/8/2N5/PPPPPPPP/R1BQKBNR b KQkq - 1 1");
///
/// log.resign(Color::Black).unwrap();
/// assert_eq!(log.result(), Some(GameResult::BlackResigns));
/// assert_eq!(log.offer_draw(Color::White), Err(Error::GameOver));
/// ```
// Boxed slices are made on the heap from the first; arrays would pass over the stack, and no thread's stack is known to have the room.
// The positions are pairs of bytes for the sake of their lists (see `entry`).
// Bytes past the used ones stay zero from the start on, so that comparing whole parts compares games.
#[derive(Clone, PartialEq, Eq)]
#[doc(alias = "Game")]
pub struct Log {
    actions: Box<[u8]>,
    positions: Box<[u16]>,
    counts: Counts,
}

impl Log {
    /// A log with a start and no action. Refused: [`Error::ListOutOfRange`] for more than 255 moves.
    ///
    /// ```
    /// use menkhodur::{Board, Log, Position};
    ///
    /// let log = Log::start(&Position { board: Board::default(), in_check: false, list: &[] }).unwrap();
    /// assert_eq!(log.current_position(), Board::default());
    /// assert_eq!(log.counts().actions, 0);
    /// ```
    pub fn start(start: &Position<'_>) -> Result<Log, Error> {
        let mut log = Log::blank();
        log.counts = lent::game_start(&log.actions, bytes_mut(&mut log.positions), start.given())?;
        Ok(log)
    }

    /// A log that starts at a board with its legal moves, and needs no host: [`Log::play_san`] goes on. Refused: [`Error::ListOutOfRange`] for
    /// more than 255 legal moves.
    ///
    /// ```
    /// use menkhodur::{Board, GameResult, Log};
    ///
    /// let mut log = Log::from_board(Board::default()).unwrap();
    /// for text in ["f3", "e5", "g4", "Qh4#"] {
    ///     log.play_san(text).unwrap();
    /// }
    /// assert_eq!(log.result(), Some(GameResult::BlackCheckmates));
    /// ```
    pub fn from_board(board: Board) -> Result<Log, Error> {
        Log::start(&Position { board, in_check: board.in_check(), list: board.legal_moves()?.moves() })
    }

    /// The log in stored bytes: at least the used ones of each part, as [`Log::used_actions`] and [`Log::used_positions`] gave them, and
    /// the counts. What is past them is not looked at. Refused: [`Error::PartTooShort`] for fewer bytes than the counts use,
    /// [`Error::LogNotGood`] for a log that no sequence of accepted calls makes, or for a count over its limit.
    ///
    /// ```
    /// use menkhodur::{Board, Color, Error, Log, Move, Position};
    ///
    /// let list = [Move::from_text("b1c3").unwrap()];
    /// let mut log = Log::start(&Position { board: Board::default(), in_check: false, list: &list }).unwrap();
    /// log.offer_draw(Color::White).unwrap();
    ///
    /// let (mut actions, positions) = (log.used_actions().to_vec(), log.used_positions().to_vec());
    /// assert_eq!(Log::from_parts(&actions, &positions, log.counts()), Ok(log.clone()));
    /// assert_eq!(Log::from_parts(&actions, &positions[1..], log.counts()), Err(Error::PartTooShort));
    /// actions[0] = 3;
    /// assert_eq!(Log::from_parts(&actions, &positions, log.counts()), Err(Error::LogNotGood));
    /// ```
    pub fn from_parts(actions: &[u8], positions: &[u8], counts: Counts) -> Result<Log, Error> {
        let (actions_used, positions_used) = used(counts);
        // Zeros in place of missing bytes could pass for the end of a list, so what is missing is refused before anything is copied.
        let actions = actions.get(..actions_used).ok_or(Error::PartTooShort)?;
        let positions = positions.get(..positions_used).ok_or(Error::PartTooShort)?;
        let mut log = Log::blank();
        log.actions[..actions_used].copy_from_slice(actions);
        bytes_mut(&mut log.positions)[..positions_used].copy_from_slice(positions);
        log.counts = counts;
        lent::game_result(&log.actions, bytes(&log.positions), counts)?;
        Ok(log)
    }

    fn blank() -> Log {
        Log {
            actions: vec![0; ACTIONS_PART].into_boxed_slice(),
            positions: vec![0; (MAX_MOVES + 1) * POSITION_PAIRS].into_boxed_slice(),
            counts: Counts::default(),
        }
    }

    /// Makes a move of the current position's list; `next` is the position after it, and its board is the one that [`Board::after`] gives, with
    /// its counters. [`Log::play`] computes it instead. Refused, in this order: [`Error::GameOver`], [`Error::MoveNotListed`],
    /// [`Error::ListOutOfRange`] for more than 255 moves in `next`, [`Error::WrongSideToMove`], [`Error::WrongRecord`], [`Error::LogFull`].
    ///
    /// ```
    /// use menkhodur::{Board, Color, Error, Log, Move, Position};
    ///
    /// let list = [Move::from_text("b1c3").unwrap()];
    /// let mut log = Log::start(&Position { board: Board::default(), in_check: false, list: &list }).unwrap();
    /// let mut next = Position { board: Board::default(), in_check: false, list: &[] };
    /// assert_eq!(log.make_move(Move::from_text("e2e4").unwrap(), &next), Err(Error::MoveNotListed));
    /// assert_eq!(log.make_move(list[0], &next), Err(Error::WrongSideToMove));
    /// next.board = next.board.side_to_move(Color::Black);
    /// assert_eq!(log.make_move(list[0], &next), Err(Error::WrongRecord));
    /// next.board = log.current_position().after(list[0]);
    /// assert_eq!(log.make_move(list[0], &next), Ok(()));
    /// ```
    pub fn make_move(&mut self, chess_move: Move, next: &Position<'_>) -> Result<(), Error> {
        let number = u64::from(chess_move.number());
        self.counts = lent::game_make_move(&mut self.actions, bytes_mut(&mut self.positions), self.counts, number, next.given())?;
        Ok(())
    }

    /// Makes a move of the current position's list. The board after it is computed, as [`Board::after`] gives it; whether its side to move is
    /// in check, and its moves, are the caller's to say. Refused, in this order: [`Error::GameOver`], [`Error::MoveNotListed`],
    /// [`Error::ListOutOfRange`] for more than 255 moves, [`Error::LogFull`].
    ///
    /// ```
    /// use menkhodur::{Board, Error, Log, Move, Position};
    ///
    /// let board = Board::from_fen("4k3/8/8/8/8/8/8/4K2R w K -").unwrap();
    /// let list = [Move::from_text("e1g1").unwrap()];
    /// let mut log = Log::start(&Position { board, in_check: false, list: &list }).unwrap();
    /// assert_eq!(log.play(Move::from_text("h1h8").unwrap(), true, &[]), Err(Error::MoveNotListed));
    /// log.play(list[0], false, &[Move::from_text("e8e7").unwrap()]).unwrap();
    /// assert_eq!(log.current_position().to_fen_full(), "4k3/8/8/8/8/8/8/5RK1 b - - 1 1");
    /// ```
    pub fn play(&mut self, chess_move: Move, in_check: bool, list: &[Move]) -> Result<(), Error> {
        let board = self.current_position().after(chess_move);
        self.make_move(chess_move, &Position { board, in_check, list })
    }

    /// Reads a SAN text in the form of the PGN standard over the legal moves of the current position, makes that move, and gives it; the text
    /// is any bytes. The position after it is the archive's own: the board of [`Board::after`], whether its side to move is in check, and
    /// its legal moves, in rising order of their numbers. A log that was begun by [`Log::from_board`] has such positions alone, and its
    /// mates and stalemates are those of the Laws. On a log whose lists a host has lent in another order an earlier position is not
    /// recognised as equal.
    ///
    /// Refused, in this order: [`Error::GameOver`]; [`Error::ListOutOfRange`] for more than 255 legal moves; [`Error::InvalidSanMove`];
    /// [`Error::ListOutOfRange`] for more than 255 after the move; [`Error::MoveNotListed`] if a host has lent a list without the move;
    /// [`Error::LogFull`].
    ///
    /// ```
    /// use menkhodur::{Board, Error, Log};
    ///
    /// let mut log = Log::from_board(Board::from_fen("r3k3/8/8/8/8/8/8/4K2R w Kq -").unwrap()).unwrap();
    /// assert_eq!(log.play_san("O-O-O"), Err(Error::InvalidSanMove));
    /// assert_eq!(log.play_san("O-O").unwrap().to_string(), "e1g1");
    /// assert_eq!(log.current_position().to_fen_full(), "r3k3/8/8/8/8/8/8/5RK1 b q - 1 1");
    /// // The white rook attacks f8, which the king does not pass.
    /// assert_eq!(log.play_san("O-O-O").unwrap().to_string(), "e8c8");
    /// ```
    pub fn play_san(&mut self, text: impl AsRef<[u8]>) -> Result<Move, Error> {
        if self.result().is_some() {
            return Err(Error::GameOver);
        }
        let before = self.current_position();
        let made = before.read_san_standard(before.legal_moves()?.moves(), text)?;
        let board = before.after(made);
        self.make_move(made, &Position { board, in_check: board.in_check(), list: board.legal_moves()?.moves() })?;
        Ok(made)
    }

    /// A colour offers a draw. Refused: [`Error::GameOver`], [`Error::LogFull`].
    ///
    /// ```
    /// use menkhodur::{Board, Color, GameResult, Log, Move, Position};
    ///
    /// let list = [Move::from_text("b1c3").unwrap()];
    /// let mut log = Log::start(&Position { board: Board::default(), in_check: false, list: &list }).unwrap();
    /// log.offer_draw(Color::White).unwrap();
    /// log.accept_draw().unwrap();
    /// assert_eq!(log.result(), Some(GameResult::DrawAccepted));
    /// ```
    pub fn offer_draw(&mut self, color: Color) -> Result<(), Error> {
        self.counts = lent::game_offer_draw(&mut self.actions, bytes(&self.positions), self.counts, color as u8)?;
        Ok(())
    }

    /// The draw that was offered is accepted: the offer is the last action, or the last but one by the side not to move. Refused:
    /// [`Error::GameOver`], [`Error::NoDrawOffer`], [`Error::LogFull`].
    ///
    /// ```
    /// use menkhodur::{Board, Error, Log, Move, Position};
    ///
    /// let list = [Move::from_text("b1c3").unwrap()];
    /// let mut log = Log::start(&Position { board: Board::default(), in_check: false, list: &list }).unwrap();
    /// assert_eq!(log.accept_draw(), Err(Error::NoDrawOffer));
    /// ```
    pub fn accept_draw(&mut self) -> Result<(), Error> {
        self.counts = lent::game_accept_draw(&mut self.actions, bytes(&self.positions), self.counts)?;
        Ok(())
    }

    /// A draw is declared, on a hundred reversible moves or the third of three equal positions. Refused: [`Error::GameOver`],
    /// [`Error::NoClaim`], [`Error::LogFull`].
    ///
    /// ```
    /// use menkhodur::{Board, Error, Log, Move, Position};
    ///
    /// let list = [Move::from_text("b1c3").unwrap()];
    /// let mut log = Log::start(&Position { board: Board::default(), in_check: false, list: &list }).unwrap();
    /// assert_eq!(log.declare_draw(), Err(Error::NoClaim));
    /// ```
    pub fn declare_draw(&mut self) -> Result<(), Error> {
        self.counts = lent::game_declare_draw(&mut self.actions, bytes(&self.positions), self.counts)?;
        Ok(())
    }

    /// A colour resigns. Refused: [`Error::GameOver`], [`Error::LogFull`].
    ///
    /// ```
    /// use menkhodur::{Board, Color, GameResult, Log, Move, Position};
    ///
    /// let list = [Move::from_text("b1c3").unwrap()];
    /// let mut log = Log::start(&Position { board: Board::default(), in_check: false, list: &list }).unwrap();
    /// log.resign(Color::White).unwrap();
    /// assert_eq!(log.result(), Some(GameResult::WhiteResigns));
    /// ```
    pub fn resign(&mut self, color: Color) -> Result<(), Error> {
        self.counts = lent::game_resign(&mut self.actions, bytes(&self.positions), self.counts, color as u8)?;
        Ok(())
    }

    /// How the game has ended, or `None` while it goes on.
    ///
    /// ```
    /// use menkhodur::{Board, GameResult, Log, Position};
    ///
    /// let log = Log::start(&Position { board: Board::default(), in_check: false, list: &[] }).unwrap();
    /// assert_eq!(log.result(), Some(GameResult::Stalemate));
    /// ```
    #[must_use]
    pub fn result(&self) -> Option<GameResult> {
        let number = certain(lent::game_result(&self.actions, bytes(&self.positions), self.counts));
        usize::from(number).checked_sub(1).map(|index| ALL_RESULTS[index])
    }

    /// Whether a draw may be declared. [`Log::ruling`] tells why.
    ///
    /// ```
    /// use menkhodur::{Board, Log, Position};
    ///
    /// let log = Log::start(&Position { board: Board::default(), in_check: false, list: &[] }).unwrap();
    /// assert!(!log.can_declare_draw());
    /// ```
    #[must_use]
    pub fn can_declare_draw(&self) -> bool {
        certain(lent::game_can_declare_draw(&self.actions, bytes(&self.positions), self.counts))
    }

    /// Whether the Laws let a draw be claimed: as [`Log::can_declare_draw`], but by the count of article 9.3, which a change of castling
    /// rights leaves running. It is so wherever a draw may be declared. A draw that only the Laws' count allows cannot be declared here:
    /// an arbiter rules on it.
    ///
    /// ```
    /// use menkhodur::{Board, Log, Position};
    ///
    /// let log = Log::start(&Position { board: Board::default(), in_check: false, list: &[] }).unwrap();
    /// assert!(!log.can_claim_by_laws());
    /// ```
    #[must_use]
    pub fn can_claim_by_laws(&self) -> bool {
        certain(lent::game_can_claim_by_laws(&self.actions, bytes(&self.positions), self.counts))
    }

    /// Whether a draw may be claimed, by document 01 and by the Laws, and what both rulings rest on. [`Ruling`] has an example.
    #[must_use]
    pub fn ruling(&self) -> Ruling {
        let ruled = certain(lent::game_ruling(&self.actions, bytes(&self.positions), self.counts));
        Ruling::of_good_log(ruled, self.counts, self.result())
    }

    /// What was done, in order. [`Action`](crate::Action) has an example.
    pub fn actions(&self) -> Actions<'_> {
        Actions(self.used_actions().chunks_exact(ACTION_BYTES))
    }

    /// The positions that came up: the start, and the one after each move. They are equal to those that the log was given, and the lists
    /// are lent from it.
    ///
    /// ```
    /// use menkhodur::{Action, Board, Error, Log, Move, Position};
    ///
    /// let list = [Move::from_text("b1c3").unwrap()];
    /// let mut log = Log::start(&Position { board: Board::default(), in_check: false, list: &list }).unwrap();
    /// log.play(list[0], false, &[]).unwrap();
    /// let after = Board::from_fen_full("rnbqkbnr/pppppppp/8/8/8/2N5/PPPPPPPP/R1BQKBNR b KQkq - 1 1").unwrap();
    /// assert_eq!(log.positions().map(|position| position.board).collect::<Vec<_>>(), [Board::default(), after]);
    ///
    /// let made = log.actions().filter_map(|action| if let Action::MakeMove(made) = action { Some(made) } else { None });
    /// let names: Result<Vec<String>, Error> = log.positions().zip(made).map(|(from, made)| from.board.name(from.list, made)).collect();
    /// assert_eq!(names.unwrap(), ["Nc3"]);
    /// ```
    pub fn positions(&self) -> Positions<'_> {
        Positions(self.used_pairs().chunks_exact(POSITION_PAIRS))
    }

    /// The board of the current position.
    ///
    /// ```
    /// use menkhodur::{Board, Log, Position};
    ///
    /// let log = Log::start(&Position { board: Board::default(), in_check: false, list: &[] }).unwrap();
    /// assert_eq!(log.current_position(), Board::default());
    /// ```
    #[must_use]
    pub fn current_position(&self) -> Board {
        self.last_position().board
    }

    /// The side to move in the current position.
    ///
    /// ```
    /// use menkhodur::{Board, Color, Log, Position};
    ///
    /// let log = Log::start(&Position { board: Board::default(), in_check: false, list: &[] }).unwrap();
    /// assert_eq!(log.side_to_move(), Color::White);
    /// ```
    #[must_use]
    pub fn side_to_move(&self) -> Color {
        self.current_position().get_side_to_move()
    }

    /// Whether the side to move is in check in the current position.
    ///
    /// ```
    /// use menkhodur::{Board, Log, Position};
    ///
    /// let log = Log::start(&Position { board: Board::default(), in_check: true, list: &[] }).unwrap();
    /// assert!(log.in_check());
    /// ```
    #[must_use]
    pub fn in_check(&self) -> bool {
        self.last_position().in_check
    }

    /// The moves of the current position's list, in order, lent from the log.
    ///
    /// ```
    /// use menkhodur::{Board, Log, Move, Position};
    ///
    /// let list = [Move::from_text("b1c3").unwrap(), Move::from_text("e2e4").unwrap()];
    /// let log = Log::start(&Position { board: Board::default(), in_check: false, list: &list }).unwrap();
    /// assert_eq!(log.current_moves(), list);
    /// ```
    #[must_use]
    pub fn current_moves(&self) -> &[Move] {
        self.last_position().list
    }

    fn last_position(&self) -> Position<'_> {
        let used = self.used_pairs();
        Position::of_good_log(&used[used.len() - POSITION_PAIRS..])
    }

    fn used_pairs(&self) -> &[u16] {
        &self.positions[..used(self.counts).1 / 2]
    }

    /// The counts of actions and moves, to be stored beside the used bytes.
    ///
    /// ```
    /// use menkhodur::{Board, Counts, Log, Position};
    ///
    /// let log = Log::start(&Position { board: Board::default(), in_check: false, list: &[] }).unwrap();
    /// assert_eq!(log.counts(), Counts { actions: 0, moves: 0 });
    /// ```
    pub fn counts(&self) -> Counts {
        self.counts
    }

    /// The game's roll: its start and what was done, without the positions after it, in at most [`lent::MAX_ROLL`] bytes.
    /// [`Roll`](crate::Roll) reads it again.
    ///
    /// ```
    /// use menkhodur::{Action, Board, Color, Log, Move, Position, Roll};
    ///
    /// let list = [Move::from_text("b1c3").unwrap()];
    /// let mut log = Log::start(&Position { board: Board::default(), in_check: false, list: &list }).unwrap();
    /// log.resign(Color::Black).unwrap();
    /// let roll = log.to_roll();
    /// assert_eq!(roll[68..], [0, 1, 1, 11]);
    /// assert_eq!(Roll::from_bytes(&roll).unwrap().actions, [Action::Resign(Color::Black)]);
    /// ```
    #[must_use]
    pub fn to_roll(&self) -> Vec<u8> {
        let start = Position::of_good_log(&self.positions[..POSITION_PAIRS]).board;
        certain(roll::written(&start, &self.actions, self.counts.actions))
    }

    /// The used bytes of the actions' part, 4 for each. [`Log::from_parts`] has an example.
    #[must_use]
    pub fn used_actions(&self) -> &[u8] {
        &self.actions[..used(self.counts).0]
    }

    /// The used bytes of the positions' part, 584 for the start and for each move. [`Log::from_parts`] has an example.
    #[must_use]
    pub fn used_positions(&self) -> &[u8] {
        bytes(self.used_pairs())
    }
}

/// How many bytes of each part the counts use; a count over its limit, which the archive refuses, uses no more than the limit.
fn used(counts: Counts) -> (usize, usize) {
    let at_most = |count: u64, limit: usize| usize::try_from(count).map_or(limit, |count| count.min(limit));
    (at_most(counts.actions, MAX_ACTIONS) * ACTION_BYTES, (at_most(counts.moves, MAX_MOVES) + 1) * POSITION_BYTES)
}

impl fmt::Debug for Log {
    fn fmt(&self, f: &mut fmt::Formatter<'_>) -> fmt::Result {
        // The parts would be hundreds of thousands of numbers.
        let mut shown = f.debug_struct("Log");
        shown.field("counts", &self.counts).field("current_position", &self.current_position()).finish_non_exhaustive()
    }
}
