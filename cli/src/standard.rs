//! What the PGN standard (section 16.1) asks of a FEN text that the archive, as the crate, lets pass. Of texts that the archive accepts.

use std::fmt;

/// What is odd about a text, with what its sentence needs.
#[derive(Clone, Copy, Debug, PartialEq, Eq)]
pub enum Oddity {
    Ranks { found: usize },
    ShortRank { rank: usize, files: usize },
    LongRank { rank: usize, files: usize },
    Digits,
    Side,
    Empty { field: usize },
    CastlingLetter,
    CastlingTwice,
    CastlingOrder,
    EnPassantSquare,
    EnPassantRank { wanted: char },
    EnPassantTail,
    Counters { fields: usize },
    HalfMoves,
    MoveNumber,
    Fields { found: usize },
}

impl Oddity {
    /// A short name, for scripts.
    pub fn name(self) -> &'static str {
        match self {
            Oddity::Ranks { .. } => "ranks",
            Oddity::ShortRank { .. } => "short-rank",
            Oddity::LongRank { .. } => "long-rank",
            Oddity::Digits => "digits",
            Oddity::Side => "side",
            Oddity::Empty { .. } => "empty-field",
            Oddity::CastlingLetter => "castling-letter",
            Oddity::CastlingTwice => "castling-twice",
            Oddity::CastlingOrder => "castling-order",
            Oddity::EnPassantSquare => "en-passant-square",
            Oddity::EnPassantRank { .. } => "en-passant-rank",
            Oddity::EnPassantTail => "en-passant-tail",
            Oddity::Counters { .. } => "counters",
            Oddity::HalfMoves => "half-moves",
            Oddity::MoveNumber => "move-number",
            Oddity::Fields { .. } => "fields",
        }
    }
}

impl fmt::Display for Oddity {
    fn fmt(&self, f: &mut fmt::Formatter<'_>) -> fmt::Result {
        match *self {
            Oddity::Ranks { found: 1 } => f.write_str("the placement has 1 rank, not 8; the others stay empty"),
            Oddity::Ranks { found } if found < 8 => write!(f, "the placement has {found} ranks, not 8; the others stay empty"),
            Oddity::Ranks { found } => write!(f, "the placement has {found} ranks, not 8; past rank 1 it goes on at rank 8"),
            Oddity::ShortRank { rank, files } => write!(f, "rank {rank} has {files} of 8 files; the others stay empty"),
            Oddity::LongRank { rank, files } => write!(f, "rank {rank} has {files} files, not 8; past file h it goes on at file a"),
            Oddity::Digits => f.write_str("two digits in a row; empty squares side by side are written as one digit"),
            Oddity::Side => f.write_str("the side to move is a capital; it should be w or b"),
            Oddity::Empty { field } => write!(f, "field {field} is empty: a space at an end, or two in a row"),
            Oddity::CastlingLetter => f.write_str("the castling field has something other than K, Q, k and q, or - alone"),
            Oddity::CastlingTwice => f.write_str("a letter of the castling field occurs twice"),
            Oddity::CastlingOrder => f.write_str("the letters of the castling field are not in the order KQkq"),
            Oddity::EnPassantSquare => f.write_str("the en passant field is neither a square nor -; no file is set"),
            Oddity::EnPassantRank { wanted } => {
                write!(f, "the en passant square is not on rank {wanted}, that of the side to move; only its file counts")
            }
            Oddity::EnPassantTail => f.write_str("the en passant square has something after it"),
            Oddity::Counters { fields } => write!(f, "{fields} fields, not 6: the half-move clock or the move number is missing"),
            Oddity::HalfMoves => f.write_str("the half-move clock is not a number"),
            Oddity::MoveNumber => f.write_str("the move number is not a number from 1 up"),
            Oddity::Fields { found } => write!(f, "{found} fields, not 6"),
        }
    }
}

/// What is odd, and where in the text.
#[derive(Clone, Copy, Debug, PartialEq, Eq)]
pub struct Warning {
    pub offset: usize,
    pub oddity: Oddity,
}

/// A field, and where it begins.
type Field<'a> = (usize, &'a [u8]);

/// Puts what is odd about an accepted text into `warnings`, in the text's order.
pub fn find(text: &[u8], warnings: &mut Vec<Warning>) {
    warnings.clear();
    let mut at = 0;
    for (index, field) in text.split(|byte| *byte == b' ').enumerate() {
        let mut warn = |offset: usize, oddity: Oddity| warnings.push(Warning { offset, oddity });
        match index {
            6 => warn(at, Oddity::Fields { found: text.iter().filter(|byte| **byte == b' ').count() + 1 }),
            7.. => break,
            _ if field.is_empty() => warn(at, Oddity::Empty { field: index + 1 }),
            _ => JUDGES[index]((at, field), text, &mut warn),
        }
        at += field.len() + 1;
    }
    let fields = text.iter().filter(|byte| **byte == b' ').count() + 1;
    if fields < 6 {
        warnings.push(Warning { offset: text.len(), oddity: Oddity::Counters { fields } });
    }
    warnings.sort_by_key(|warning| warning.offset);
}

/// Looks at one field that has a byte.
type Judge = fn(Field<'_>, &[u8], &mut dyn FnMut(usize, Oddity));

const JUDGES: [Judge; 6] = [placement, side, castling, en_passant, half_moves, move_number];

fn placement((_, field): Field<'_>, _: &[u8], warn: &mut dyn FnMut(usize, Oddity)) {
    let mut at = 0;
    for (index, rank) in field.split(|byte| *byte == b'/').enumerate() {
        match index {
            0..8 => rank_of(at, rank, 8 - index, warn),
            8 => warn(at - 1, Oddity::Ranks { found: field.iter().filter(|byte| **byte == b'/').count() + 1 }),
            _ => return,
        }
        at += rank.len() + 1;
    }
    let found = field.iter().filter(|byte| **byte == b'/').count() + 1;
    if found < 8 {
        warn(field.len(), Oddity::Ranks { found });
    }
}

fn rank_of(at: usize, rank: &[u8], number: usize, warn: &mut dyn FnMut(usize, Oddity)) {
    let files_of = |byte: u8| if byte.is_ascii_digit() { usize::from(byte - b'0') } else { 1 };
    let digits = rank.windows(2).position(|pair| pair[0].is_ascii_digit() && pair[1].is_ascii_digit());
    if let Some(place) = digits {
        warn(at + place + 1, Oddity::Digits);
    }
    let files: usize = rank.iter().map(|byte| files_of(*byte)).sum();
    if files < 8 {
        return warn(at + rank.len(), Oddity::ShortRank { rank: number, files });
    }
    let mut reached = 0;
    let past = rank.iter().position(|byte| {
        reached += files_of(*byte);
        reached > 8
    });
    if let Some(place) = past {
        warn(at + place, Oddity::LongRank { rank: number, files });
    }
}

fn side((at, field): Field<'_>, _: &[u8], warn: &mut dyn FnMut(usize, Oddity)) {
    if field[0].is_ascii_uppercase() {
        warn(at, Oddity::Side);
    }
}

fn castling((at, field): Field<'_>, _: &[u8], warn: &mut dyn FnMut(usize, Oddity)) {
    if field == b"-" {
        return;
    }
    let place = |byte: u8| b"KQkq".iter().position(|letter| *letter == byte);
    if let Some(bad) = field.iter().position(|byte| place(*byte).is_none()) {
        return warn(at + bad, Oddity::CastlingLetter);
    }
    if let Some(again) = (1..field.len()).find(|i| field[..*i].contains(&field[*i])) {
        return warn(at + again, Oddity::CastlingTwice);
    }
    if let Some(early) = (1..field.len()).find(|i| place(field[*i]) < place(field[*i - 1])) {
        warn(at + early, Oddity::CastlingOrder);
    }
}

/// The rank is that behind a pawn of the other side: 6 with white to move, 3 with black.
fn en_passant((at, field): Field<'_>, text: &[u8], warn: &mut dyn FnMut(usize, Oddity)) {
    let white = text.split(|byte| *byte == b' ').nth(1).is_some_and(|side| side.eq_ignore_ascii_case(b"w"));
    let wanted = if white { b'6' } else { b'3' };
    match field {
        b"-" => {}
        [b'a'..=b'h', rank @ b'1'..=b'8', tail @ ..] => {
            if *rank != wanted {
                warn(at + 1, Oddity::EnPassantRank { wanted: char::from(wanted) });
            }
            if !tail.is_empty() {
                warn(at + 2, Oddity::EnPassantTail);
            }
        }
        _ => warn(at, Oddity::EnPassantSquare),
    }
}

fn half_moves((at, field): Field<'_>, _: &[u8], warn: &mut dyn FnMut(usize, Oddity)) {
    if !field.iter().all(u8::is_ascii_digit) {
        warn(at, Oddity::HalfMoves);
    }
}

fn move_number((at, field): Field<'_>, _: &[u8], warn: &mut dyn FnMut(usize, Oddity)) {
    if !field.iter().all(u8::is_ascii_digit) || field.iter().all(|byte| *byte == b'0') {
        warn(at, Oddity::MoveNumber);
    }
}

#[cfg(test)]
mod tests {
    use super::*;

    fn found(text: &str) -> Vec<(usize, &'static str)> {
        let mut warnings = vec![];
        find(text.as_bytes(), &mut warnings);
        warnings.iter().map(|warning| (warning.offset, warning.oddity.name())).collect()
    }

    /// Read off the standard's text, 16.1.3.1 to 16.1.3.6.
    const ROWS: &[(&str, &[(usize, &str)])] = &[
        ("8/8/8/8/8/8/8/8 w - - 0 1", &[]),
        ("8/8/8/8/8/8/8/8 w KQkq e6 12 345", &[]),
        ("8/8/8/8/8/8/8/8 b kq e3 0 1", &[]),
        ("8/8/8/8/8/8/PPPPPPP/8 w - - 0 1", &[(19, "short-rank")]),
        ("8/8/8/8/8/8/PPPPPPPPP/8 w - - 0 1", &[(20, "long-rank")]),
        ("8/8/8/8/8/8/7PP/8 w - - 0 1", &[(14, "long-rank")]),
        ("44/8/8/8/8/8/8/8 w - - 0 1", &[(1, "digits")]),
        ("8/8 w - - 0 1", &[(3, "ranks")]),
        ("8/8/8/8/8/8/8/8/8/8 w - - 0 1", &[(15, "ranks")]),
        (" w - - 0 1", &[(0, "empty-field")]),
        ("8/8/8/8/8/8/8/8 W - - 0 1", &[(16, "side")]),
        ("8/8/8/8/8/8/8/8 B - - 0 1", &[(16, "side")]),
        ("8/8/8/8/8/8/8/8 w  - 0 1", &[(18, "empty-field")]),
        ("8/8/8/8/8/8/8/8 w KxQ - 0 1", &[(19, "castling-letter")]),
        ("8/8/8/8/8/8/8/8 w -K - 0 1", &[(18, "castling-letter")]),
        ("8/8/8/8/8/8/8/8 w KQK - 0 1", &[(20, "castling-twice")]),
        ("8/8/8/8/8/8/8/8 w kqKQ - 0 1", &[(20, "castling-order")]),
        ("8/8/8/8/8/8/8/8 w QK - 0 1", &[(19, "castling-order")]),
        ("8/8/8/8/8/8/8/8 w - e3 0 1", &[(21, "en-passant-rank")]),
        ("8/8/8/8/8/8/8/8 b - e6 0 1", &[(21, "en-passant-rank")]),
        ("8/8/8/8/8/8/8/8 w - e6x 0 1", &[(22, "en-passant-tail")]),
        ("8/8/8/8/8/8/8/8 w - e4x 0 1", &[(21, "en-passant-rank"), (22, "en-passant-tail")]),
        ("8/8/8/8/8/8/8/8 w - z9 0 1", &[(20, "en-passant-square")]),
        ("8/8/8/8/8/8/8/8 w - -- 0 1", &[(20, "en-passant-square")]),
        ("8/8/8/8/8/8/8/8 w - E6 0 1", &[(20, "en-passant-square")]),
        ("8/8/8/8/8/8/8/8 w - -", &[(21, "counters")]),
        ("8/8/8/8/8/8/8/8 w - - 0", &[(23, "counters")]),
        ("8/8/8/8/8/8/8/8 w - - x 1", &[(22, "half-moves")]),
        ("8/8/8/8/8/8/8/8 w - - -1 1", &[(22, "half-moves")]),
        ("8/8/8/8/8/8/8/8 w - - 0 0", &[(24, "move-number")]),
        ("8/8/8/8/8/8/8/8 w - - 0 1\r", &[(24, "move-number")]),
        ("8/8/8/8/8/8/8/8 w - - 0 1 ", &[(26, "fields")]),
        ("8/8/8/8/8/8/8/8 w - -  0 1", &[(22, "empty-field"), (23, "move-number"), (25, "fields")]),
        ("8/8/8/8/8/8/8/8 w - - ", &[(22, "empty-field"), (22, "counters")]),
    ];

    #[test]
    fn what_the_standard_would_not_have_is_found_where_it_stands() {
        for (text, owed) in ROWS {
            assert_eq!(found(text), *owed, "{text}");
        }
    }
}
