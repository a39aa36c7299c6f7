//! The refusals, by the answer numbers of documents 01 and 02.

use std::fmt;

/// Why a call was refused: one variant for each answer number of document 01, and of the orders of document 02 that have landed. The number
/// 1 has none: order 2 has put 18, 19 and 20 in its place.
///
/// A refused call has changed nothing: neither the bytes that were lent to it nor the log it was asked of.
///
/// ```
/// use menkhodur::{Board, Error};
///
/// let refused = Board::from_fen("8/8 x - -").unwrap_err();
/// assert_eq!(refused, Error::BadSide { offset: 4 });
/// assert_eq!(refused.number(), 20);
/// assert_eq!(refused.to_string(), "the side to move of the FEN text is not w, W, b or B, at byte 4 (answer 20)");
/// ```
#[derive(Clone, Copy, Debug, PartialEq, Eq, Hash)]
#[non_exhaustive]
pub enum Error {
    /// 2: a pair of bytes in a coordinate text, or a text that should be a square, is not one.
    InvalidSquare {
        /// The place in the text of the pair's file byte, or of its rank byte if the file byte is right. `FromStr` of
        /// [`Square`](crate::Square) says what it is for a text that has not two bytes.
        offset: usize,
    },
    /// 3: the text is not a move in coordinates: a pair is missing, or a fifth and last byte is not q, r, n or b.
    InvalidUciMove {
        /// The text's length if a pair is missing, and 4, the place of the fifth byte, if not.
        offset: usize,
    },
    /// 4: the text is no SAN text, fits no listed move (as castling that is not listed) or more than one, or is wrong about whether the
    /// move captures.
    InvalidSanMove,
    /// 4 too, of a step through a game's move text, as [`lent::game_step`](crate::lent::game_step) makes it.
    InvalidSanMoveAt {
        /// Where the move starts in the text.
        start: usize,
        /// How many bytes it has.
        length: usize,
    },
    /// 5: a record number, square, rank, file, colour, rights number or in-check byte is out of range.
    OutOfRange,
    /// 5 too, of such a step: a number of the record is out of range.
    OutOfRangeAt {
        /// Where the move starts in the text.
        start: usize,
        /// How many bytes it has.
        length: usize,
    },
    /// 6: the list is longer than 255, or one of its moves, or the move to write in coordinates, is over 28,671; or there are more than 255
    /// legal moves.
    ListOutOfRange,
    /// 6 too, of such a step.
    ListOutOfRangeAt {
        /// Where the move starts in the text.
        start: usize,
        /// How many bytes it has.
        length: usize,
    },
    /// 7: the room for the text or the roll is too short.
    OutputTooShort {
        /// How many bytes the text or the roll has.
        needed: usize,
    },
    /// 7 too, of a page of FEN texts: one of its two rooms is too short.
    PageTooShort {
        /// How many lines the page has.
        lines: usize,
    },
    /// 7 too, of the list of the legal moves: the room for them is too short.
    ListTooShort {
        /// How many moves there are.
        moves: usize,
    },
    /// 8: no SAN text is read as this move, given this list.
    NoName,
    /// 9: no sequence of accepted calls makes this log, or a count is over its limit.
    LogNotGood,
    /// 10: the game is over.
    GameOver,
    /// 11: the move is not in the list.
    MoveNotListed,
    /// 12: the position after the move has the side to move that has just moved.
    WrongSideToMove,
    /// 13: the log has [`MAX_ACTIONS`](crate::lent::MAX_ACTIONS) actions, or, for a move, [`MAX_MOVES`](crate::lent::MAX_MOVES) moves; or a
    /// roll has more.
    LogFull,
    /// 13 too, of a report: the page has more than [`REPORT_LINES`](crate::lent::REPORT_LINES) lines.
    PageTooLong,
    /// 14: there is no offer to accept.
    NoDrawOffer,
    /// 15: no draw can be claimed.
    NoClaim,
    /// 16: the part of the actions or that of the positions is too short.
    PartTooShort,
    /// 17: a roll ends too early or goes on behind its last action, or a number in it is not in the fewest groups, has more than five or is
    /// out of range; or bytes to write one from are no action.
    BadRoll,
    /// 18: the FEN text has fewer than four tokens, empty ones counted.
    TooFewTokens {
        /// The text's length.
        offset: usize,
    },
    /// 19: a byte of the FEN text's first token, the placement, is none of `/12345678PNBRQKpnbrqk`.
    BadPlacement {
        /// The place of the first such byte in the text.
        offset: usize,
    },
    /// 20: the FEN text's second token, the side to move, is not `w`, `W`, `b` or `B`.
    BadSide {
        /// The place in the text where that token starts.
        offset: usize,
    },
    /// 21: a comment or a bracket of the PGN move text is left open.
    LeftOpen {
        /// The place of the innermost in the text; the place from which was read, for a bracket opened before it.
        offset: usize,
    },
    /// 22: brackets of the PGN move text go deeper than 8 levels, or the level of a place is over 8.
    TooDeep {
        /// The place of the bracket that would open the ninth level, or the place's own offset.
        offset: usize,
    },
    /// 23: the PGN move text has an unknown token, a result in brackets or a stray closing bracket, or an offset is past it.
    UnknownToken {
        /// Where that stands, or the offset itself.
        offset: usize,
    },
    /// 24: the position after the move is not the one that the move leads to, as [`Board::after`](crate::Board::after) gives it.
    WrongRecord,
    /// 25: the FEN text's fifth token, the half-move clock, or its sixth, the move number, is missing or is not one to four digits, or the
    /// move number is 0. Only the full reader asks, [`Board::from_fen_full`](crate::Board::from_fen_full).
    BadCounter {
        /// The text's length if the token is missing, and else the place where it starts.
        offset: usize,
    },
    /// Any other number: the archive is of a version that this package does not know.
    Unknown(u64),
}

impl Error {
    /// The answer number of documents 01 and 02.
    ///
    /// ```
    /// use menkhodur::Error;
    ///
    /// assert_eq!(Error::GameOver.number(), 10);
    /// assert_eq!(Error::OutputTooShort { needed: 25 }.number(), 7);
    /// ```
    #[must_use]
    pub fn number(&self) -> u64 {
        match *self {
            Error::InvalidSquare { .. } => 2,
            Error::InvalidUciMove { .. } => 3,
            Error::InvalidSanMove | Error::InvalidSanMoveAt { .. } => 4,
            Error::OutOfRange | Error::OutOfRangeAt { .. } => 5,
            Error::ListOutOfRange | Error::ListOutOfRangeAt { .. } => 6,
            Error::OutputTooShort { .. } | Error::PageTooShort { .. } | Error::ListTooShort { .. } => 7,
            Error::NoName => 8,
            Error::LogNotGood => 9,
            Error::GameOver => 10,
            Error::MoveNotListed => 11,
            Error::WrongSideToMove => 12,
            Error::LogFull | Error::PageTooLong => 13,
            Error::NoDrawOffer => 14,
            Error::NoClaim => 15,
            Error::PartTooShort => 16,
            Error::BadRoll => 17,
            Error::TooFewTokens { .. } => 18,
            Error::BadPlacement { .. } => 19,
            Error::BadSide { .. } => 20,
            Error::LeftOpen { .. } => 21,
            Error::TooDeep { .. } => 22,
            Error::UnknownToken { .. } => 23,
            Error::WrongRecord => 24,
            Error::BadCounter { .. } => 25,
            Error::Unknown(number) => number,
        }
    }

    /// The place in the text of what is wrong with it, for the numbers that come with one: 2, 3, 18 to 23 and 25, and of a step through
    /// a game's move text 4, 5 and 6 too.
    ///
    /// ```
    /// use menkhodur::{Board, Error, Move};
    ///
    /// assert_eq!(Board::from_fen("8/8/8/8/8/8/8/9 w - -").unwrap_err().offset(), Some(14));
    /// assert_eq!(Move::from_text("e2e9").unwrap_err().offset(), Some(3));
    /// assert_eq!(Error::GameOver.offset(), None);
    /// ```
    #[must_use]
    pub fn offset(&self) -> Option<usize> {
        match *self {
            Error::InvalidSquare { offset } | Error::InvalidUciMove { offset } => Some(offset),
            Error::TooFewTokens { offset } | Error::BadPlacement { offset } | Error::BadSide { offset } => Some(offset),
            Error::BadCounter { offset } => Some(offset),
            Error::LeftOpen { offset } | Error::TooDeep { offset } | Error::UnknownToken { offset } => Some(offset),
            Error::InvalidSanMoveAt { start, .. } | Error::OutOfRangeAt { start, .. } | Error::ListOutOfRangeAt { start, .. } => {
                Some(start)
            }
            _ => None,
        }
    }

    /// `detail` is what an answer tells of a refusal besides its number: the length needed, or the place in the text.
    pub(crate) fn judge(number: u64, detail: u64) -> Result<(), Error> {
        // A text or a roll that is written has a bounded length, and a place is at most the length of a text that was lent, or an offset that
        // was a `usize` when it was handed in, so nothing is cut here on any target with 64 bits, the only ones that the archive is for.
        let detail = detail as usize;
        Err(match number {
            0 => return Ok(()),
            2 => Error::InvalidSquare { offset: detail },
            3 => Error::InvalidUciMove { offset: detail },
            4 => Error::InvalidSanMove,
            5 => Error::OutOfRange,
            6 => Error::ListOutOfRange,
            7 => Error::OutputTooShort { needed: detail },
            8 => Error::NoName,
            9 => Error::LogNotGood,
            10 => Error::GameOver,
            11 => Error::MoveNotListed,
            12 => Error::WrongSideToMove,
            13 => Error::LogFull,
            14 => Error::NoDrawOffer,
            15 => Error::NoClaim,
            16 => Error::PartTooShort,
            17 => Error::BadRoll,
            18 => Error::TooFewTokens { offset: detail },
            19 => Error::BadPlacement { offset: detail },
            20 => Error::BadSide { offset: detail },
            21 => Error::LeftOpen { offset: detail },
            22 => Error::TooDeep { offset: detail },
            23 => Error::UnknownToken { offset: detail },
            24 => Error::WrongRecord,
            25 => Error::BadCounter { offset: detail },
            other => Error::Unknown(other),
        })
    }

    /// 4, 5 or 6 of a step, with the part of the text that holds its move.
    pub(crate) fn in_step(number: u64, start: u64, length: u64) -> Error {
        // As above: the part lies in a text that was lent.
        let (start, length) = (start as usize, length as usize);
        match number {
            4 => Error::InvalidSanMoveAt { start, length },
            5 => Error::OutOfRangeAt { start, length },
            6 => Error::ListOutOfRangeAt { start, length },
            other => Error::Unknown(other),
        }
    }

    /// What the number means, in words.
    ///
    /// ```
    /// use menkhodur::Error;
    ///
    /// assert_eq!(Error::NoDrawOffer.meaning(), "there is no draw offer to accept");
    /// assert_eq!(Error::NoDrawOffer.to_string(), "there is no draw offer to accept (answer 14)");
    /// ```
    #[must_use]
    pub fn meaning(&self) -> &'static str {
        match *self {
            Error::InvalidSquare { .. } => "the text has something else where a square such as e4 should be",
            Error::InvalidUciMove { .. } => "the text is not a move such as e2e4 or e7e8q",
            Error::InvalidSanMove | Error::InvalidSanMoveAt { .. } => {
                "the text is no SAN text, fits no listed move or more than one, or is wrong about a capture"
            }
            Error::OutOfRange | Error::OutOfRangeAt { .. } => {
                "a number of the board, a square, rank, file, colour, rights number or in-check byte is out of range"
            }
            Error::ListOutOfRange | Error::ListOutOfRangeAt { .. } => "the list has more than 255 moves, or a move's number is over 28,671",
            Error::OutputTooShort { .. } => "the room for the text or the roll is too short",
            Error::PageTooShort { .. } => "the room for the page's records or that for its numbers is too short",
            Error::ListTooShort { .. } => "the room for the legal moves is too short",
            Error::NoName => "no text names this move among the listed ones",
            Error::LogNotGood => "no sequence of accepted calls makes this log, or a count is over its limit",
            Error::GameOver => "the game is over",
            Error::MoveNotListed => "the move is not in the list",
            Error::WrongSideToMove => "the position after the move has the wrong side to move",
            Error::LogFull => "the log has all the actions, or all the moves, that a log may have, or the roll has more",
            Error::PageTooLong => "the page has more than 4,096 lines, the most that a report takes",
            Error::NoDrawOffer => "there is no draw offer to accept",
            Error::NoClaim => "no draw can be claimed",
            Error::PartTooShort => "the part of the actions or that of the positions is too short",
            Error::BadRoll => "the bytes are not a roll, or not the actions of one",
            Error::TooFewTokens { .. } => "the FEN text ends before its fourth token",
            Error::BadPlacement { .. } => "the placement of the FEN text has something other than pieces, digits from 1 to 8 and slashes",
            Error::BadSide { .. } => "the side to move of the FEN text is not w, W, b or B",
            Error::LeftOpen { .. } => "a comment or a bracket of the move text is left open",
            Error::TooDeep { .. } => "the brackets of the move text go deeper than 8 levels",
            Error::UnknownToken { .. } => "the move text has something that is no token of it, or not there",
            Error::WrongRecord => "the position after the move is not the one that the move leads to",
            Error::BadCounter { .. } => "a counter of the FEN text is missing, is not one to four digits, or is a move number of 0",
            Error::Unknown(_) => "the archive refused for a reason that this package does not know",
        }
    }
}

impl fmt::Display for Error {
    fn fmt(&self, f: &mut fmt::Formatter<'_>) -> fmt::Result {
        f.write_str(self.meaning())?;
        if let Error::OutputTooShort { needed } = self {
            write!(f, ", {needed} bytes are needed")?;
        }
        if let Error::PageTooShort { lines } = self {
            write!(f, ", its lines are {lines}")?;
        }
        if let Error::ListTooShort { moves } = self {
            write!(f, ", there are {moves}")?;
        }
        if let Some(offset) = self.offset() {
            write!(f, ", at byte {offset}")?;
        }
        write!(f, " (answer {})", self.number())
    }
}

impl std::error::Error for Error {}

/// For calls whose numbers are in range by their types, which the archive is proved to accept. Should one be refused all the same,
/// another archive than this repository's has been linked, and going on would file positions under wrong keys.
pub(crate) fn certain<T>(answer: Result<T, Error>) -> T {
    match answer {
        Ok(value) => value,
        Err(refused) => panic!("the linked archive is not the one this package was written for: {refused}"),
    }
}

#[cfg(test)]
mod tests {
    use super::*;
    use std::collections::HashSet;

    #[test]
    fn every_number_has_its_own_variant_and_text() {
        let mut texts = HashSet::new();
        for number in 2..=25 {
            let error = Error::judge(number, 85).unwrap_err();
            assert_eq!(error.number(), number);
            assert!(!matches!(error, Error::Unknown(_)));
            assert!(texts.insert(error.meaning()), "{error}");
            assert!(error.to_string().starts_with(error.meaning()));
            assert!(error.to_string().ends_with(&format!("(answer {number})")));
        }
    }

    #[test]
    fn accepted_is_no_error_and_an_unknown_number_is_kept() {
        assert_eq!(Error::judge(0, 7), Ok(()));
        // 1 was that of every refused FEN before version 3.
        for number in [1, 26, 27, u64::MAX] {
            assert_eq!(Error::judge(number, 7), Err(Error::Unknown(number)));
            assert_eq!((Error::Unknown(number).number(), Error::Unknown(number).offset()), (number, None));
        }
    }

    #[test]
    fn the_needed_length_is_kept_and_told() {
        let error = Error::judge(7, 85).unwrap_err();
        assert_eq!(error, Error::OutputTooShort { needed: 85 });
        assert_eq!(error.to_string(), "the room for the text or the roll is too short, 85 bytes are needed (answer 7)");
        assert_eq!(error.offset(), None);
    }

    #[test]
    fn the_lines_of_a_page_are_kept_and_told() {
        let error = Error::PageTooShort { lines: 3 };
        assert_eq!((error.number(), error.offset()), (7, None));
        assert_eq!(error.to_string(), "the room for the page's records or that for its numbers is too short, its lines are 3 (answer 7)");
    }

    #[test]
    fn the_number_of_legal_moves_is_kept_and_told() {
        let error = Error::ListTooShort { moves: 20 };
        assert_eq!((error.number(), error.offset()), (7, None));
        assert_eq!(error.to_string(), "the room for the legal moves is too short, there are 20 (answer 7)");
    }

    #[test]
    fn a_page_that_is_too_long_is_told_from_a_full_log() {
        let error = Error::PageTooLong;
        assert_eq!((error.number(), error.offset(), Error::judge(13, 0)), (13, None, Err(Error::LogFull)));
        assert_eq!(error.to_string(), "the page has more than 4,096 lines, the most that a report takes (answer 13)");
    }

    #[test]
    fn the_place_in_the_text_is_kept_and_told() {
        for number in 2..=25 {
            let (error, has) = (Error::judge(number, 85).unwrap_err(), [2, 3, 18, 19, 20, 21, 22, 23, 25].contains(&number));
            assert_eq!(error.offset(), has.then_some(85));
            assert_eq!(error.to_string().contains(", at byte 85 (answer "), has, "{error}");
        }
        let words = |number: u64, offset: u64| Error::judge(number, offset).unwrap_err().to_string();
        assert_eq!(words(2, 3), "the text has something else where a square such as e4 should be, at byte 3 (answer 2)");
        assert_eq!(words(3, 0), "the text is not a move such as e2e4 or e7e8q, at byte 0 (answer 3)");
        assert_eq!(words(18, 7), "the FEN text ends before its fourth token, at byte 7 (answer 18)");
        assert!(words(19, 0).ends_with("has something other than pieces, digits from 1 to 8 and slashes, at byte 0 (answer 19)"));
        assert_eq!(words(20, 16), "the side to move of the FEN text is not w, W, b or B, at byte 16 (answer 20)");
        assert_eq!(words(21, 4), "a comment or a bracket of the move text is left open, at byte 4 (answer 21)");
        assert_eq!(words(22, 8), "the brackets of the move text go deeper than 8 levels, at byte 8 (answer 22)");
        assert_eq!(words(23, 3), "the move text has something that is no token of it, or not there, at byte 3 (answer 23)");
        assert_eq!(words(24, 3), "the position after the move is not the one that the move leads to (answer 24)");
        let counter = "a counter of the FEN text is missing, is not one to four digits, or is a move number of 0";
        assert_eq!(words(25, 8), format!("{counter}, at byte 8 (answer 25)"));
    }

    #[test]
    fn a_step_tells_the_part_of_the_text_that_is_refused() {
        for number in 4..=6 {
            let (error, plain) = (Error::in_step(number, 85, 3), Error::judge(number, 85).unwrap_err());
            assert_eq!((error.number(), error.offset(), error.meaning()), (number, Some(85), plain.meaning()));
            assert_eq!(error.to_string(), format!("{}, at byte 85 (answer {number})", plain.meaning()));
        }
        assert_eq!(Error::in_step(4, 85, 3), Error::InvalidSanMoveAt { start: 85, length: 3 });
        assert_eq!(Error::in_step(9, 85, 3), Error::Unknown(9));
    }

    #[test]
    #[should_panic(expected = "not the one this package was written for: the game is over (answer 10)")]
    fn an_impossible_refusal_is_not_passed_over() {
        certain::<()>(Err(Error::GameOver));
    }
}
