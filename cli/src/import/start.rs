//! The position that a game starts from: the initial one, or that of its FEN tag, if it is chess and a game can come from it.

use super::numbered;
use super::refused::{At, Refusal};
use crate::games::{self, Game};
use crate::options::Stop;
use crate::standard::{self, Oddity, Warning};
use menkhodur::Error;
use menkhodur::lent::{self, Record};

const INITIAL: &[u8] = b"rnbqkbnr/pppppppp/8/8/8/8/PPPPPPPP/RNBQKBNR w KQkq - 0 1";

/// What a Variant tag of standard chess may say, in any case.
const CHESS: [&[u8]; 7] = [b"Standard", b"Chess", b"Normal", b"From Position", b"", b"?", b"-"];

/// Finds starts.
pub struct Starts {
    initial: Record,
    warnings: Vec<Warning>,
}

/// The value of a tag pair, with its place.
#[derive(Clone, Copy)]
struct Value<'a> {
    index: usize,
    from: usize,
    text: &'a [u8],
}

impl Value<'_> {
    fn refused(&self, kind: &'static str, answer: u64, offset: usize, reason: impl ToString) -> Refusal {
        let at = At::Tag { index: self.index, offset: self.from + offset };
        Refusal { kind, answer, at, reason: reason.to_string(), text: self.text.to_vec() }
    }

    fn bad(&self, token: usize, reason: impl ToString) -> Refusal {
        self.refused("start", 0, token_at(self.text, token), reason)
    }
}

/// Where a token of a FEN text begins.
fn token_at(text: &[u8], token: usize) -> usize {
    text.split(|byte| *byte == b' ').take(token).map(|token| token.len() + 1).sum()
}

fn values<'a>(game: &'a Game, wanted: &[u8]) -> impl Iterator<Item = Value<'a>> {
    let value = |(index, tag): (usize, &'a [u8])| {
        let (name, from, text) = games::placed(tag)?;
        name.eq_ignore_ascii_case(wanted).then_some(Value { index, from, text })
    };
    game.tag_pairs().enumerate().filter_map(value)
}

impl Starts {
    pub fn new() -> Result<Starts, Stop> {
        let initial = lent::fen_read_full(INITIAL).map_err(|refused| Stop::trouble(refused.to_string()))?;
        Ok(Starts { initial, warnings: vec![] })
    }

    /// The settled record that a game starts from.
    pub fn of(&mut self, game: &Game) -> Result<Record, Refusal> {
        let is_chess = |value: &Value<'_>| CHESS.iter().any(|chess| value.text.trim_ascii().eq_ignore_ascii_case(chess));
        if let Some(variant) = values(game, b"Variant").find(|value| !is_chess(value)) {
            return Err(variant.refused("variant", 0, 0, "the game is of a variant, not of chess"));
        }
        let mut fens = values(game, b"FEN");
        let Some(fen) = fens.next() else { return numbered::judge(&game.text).map(|()| self.initial) };
        if let Some(other) = fens.find(|other| other.text != fen.text) {
            return Err(other.bad(0, "the game has another FEN tag, which says something else"));
        }
        self.read(&fen)
    }

    fn read(&mut self, fen: &Value<'_>) -> Result<Record, Refusal> {
        let refused = |error: Error| fen.refused("start", error.number(), error.offset().unwrap_or_default(), error.meaning());
        let read = match lent::fen_read_full(fen.text) {
            Err(Error::BadCounter { .. }) => lent::fen_read(fen.text),
            read => read,
        };
        let record = read.map_err(refused)?;
        standard::find(fen.text, &mut self.warnings);
        if let Some(warning) = self.warnings.iter().find(|warning| bars(warning.oddity)) {
            return Err(fen.refused("start", 0, warning.offset, warning.oddity));
        }
        let settled = lent::board_settled(&record).map_err(refused)?;
        playable(fen, &settled)?;
        Ok(settled)
    }
}

/// Whether a text with such a warning says something else than it seems to: all that is odd in its ranks and in its castling letters.
pub fn bars(oddity: Oddity) -> bool {
    match oddity {
        Oddity::Ranks { .. } | Oddity::ShortRank { .. } | Oddity::LongRank { .. } | Oddity::Digits => true,
        Oddity::CastlingLetter | Oddity::CastlingTwice | Oddity::CastlingOrder => true,
        Oddity::Empty { field } => field == 1 || field == 3,
        _ => false,
    }
}

const WHITE_KING: u8 = 6;
const BLACK_KING: u8 = 12;

/// Whether a legal game can come from a record.
fn playable(fen: &Value<'_>, record: &Record) -> Result<(), Refusal> {
    for (name, king) in [("white", WHITE_KING), ("black", BLACK_KING)] {
        let kings = record.numbers[..64].iter().filter(|man| **man == king).count();
        if kings != 1 {
            return Err(fen.bad(0, format!("{name} has {kings} kings, not 1")));
        }
    }
    if !at_home(record) {
        return Err(fen.bad(2, "a castling right without king and rook at home"));
    }
    if !stepped(record) {
        return Err(fen.bad(3, "no pawn has just come over the en passant square"));
    }
    let other = lent::side_to_move(record, 1 - record.numbers[64]);
    match other.is_ok_and(|other| menkhodur_moves::in_check(&other)) {
        true => Err(fen.bad(1, "the side that is not to move is in check")),
        false => Ok(()),
    }
}

/// Whether each castling right has its king and its rook at home.
fn at_home(record: &Record) -> bool {
    const WHITE_ROOK: u8 = 4;
    const BLACK_ROOK: u8 = 10;
    let squares = &record.numbers;
    [(65, 0, WHITE_KING, WHITE_ROOK), (66, 56, BLACK_KING, BLACK_ROOK)].iter().all(|(rights, home, king, rook)| {
        let rights = squares[*rights];
        let stands = |at: usize, man: u8| squares[home + at] == man;
        (rights == 0 || stands(4, *king)) && (rights & 1 == 0 || stands(7, *rook)) && (rights & 2 == 0 || stands(0, *rook))
    })
}

/// Whether the en passant file, if there is one, is that of a pawn of the other side, with nothing on the two squares behind it.
fn stepped(record: &Record) -> bool {
    let squares = &record.numbers;
    let Some(file) = usize::from(squares[67]).checked_sub(1) else { return true };
    let on = |rank: usize| squares[8 * rank + file];
    match squares[64] {
        0 => on(4) == 7 && on(5) == 0 && on(6) == 0,
        _ => on(3) == 1 && on(2) == 0 && on(1) == 0,
    }
}
