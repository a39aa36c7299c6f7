//! A game's moves with its variations, as the export form of the PGN standard has them: names by the archive, move numbers and brackets, one blank between
//! two words, without comments, glyphs and result. Read again it gives the same moves in the same brackets, and is written the same.

use super::named::{self, Unnamed};
use super::played::Host;
use super::sequences::Sequences;
use menkhodur::lent::Record;
use menkhodur::{Board, Color, Lent, Move};

/// A move as the walk has met it: the brackets that were closed and opened before it, and its number.
#[derive(Clone, Copy, Debug, PartialEq, Eq)]
pub struct Met {
    pub closed: u8,
    pub opened: u8,
    pub number: u16,
}

/// The text of moves from a start.
pub fn text<H: Host>(host: &mut H, list: &mut Lent, start: &Record, moves: &[Met]) -> Result<String, Unnamed> {
    let (mut text, mut level, mut lines) = (String::new(), 0_usize, Sequences::new(start));
    for (index, met) in moves.iter().enumerate() {
        let (closed, opened) = (usize::from(met.closed), usize::from(met.opened));
        text.push_str(&")".repeat(closed));
        if index > 0 {
            text.push(' ');
        }
        text.push_str(&"(".repeat(opened));
        lines.cross(level, closed, opened);
        level = level.saturating_sub(closed) + opened;
        let before = Board::from_record(&lines.now(level))?;
        let made = Move::from_number(met.number.into())?;
        text.push_str(&number(&before, index == 0 || closed + opened > 0));
        let after = before.after(made);
        text.push_str(&named::name(host, list, &before, made, &after)?);
        lines.played(level, after.record());
    }
    text.push_str(&")".repeat(level));
    Ok(text)
}

/// What stands before a move: white's has its number, and black's only where it does not stand right behind white's.
fn number(before: &Board, apart: bool) -> String {
    match before.get_side_to_move() {
        Color::White => format!("{}. ", before.get_full_moves()),
        Color::Black if apart => format!("{}... ", before.get_full_moves()),
        Color::Black => String::new(),
    }
}
