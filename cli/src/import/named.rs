//! The name of a move in the form of the PGN standard, by the archive over lists that a host lends.

use super::played::Host;
use menkhodur::{Board, Color, Error, Lent, Move, Piece};

/// Why a move has no name.
#[derive(Debug)]
pub enum Unnamed {
    Refused(Error),
    /// Of the host, in words.
    Trouble(String),
}

impl From<Error> for Unnamed {
    fn from(refused: Error) -> Unnamed {
        Unnamed::Refused(refused)
    }
}

/// The name of a move between two positions, with + behind it if it gives check and # if it mates. By the moves of the same kind of man to the same square,
/// the only ones that a name must tell apart: the list of all moves could be too long to be lent.
pub fn name<H: Host>(host: &mut H, list: &mut Lent, before: &Board, made: Move, after: &Board) -> Result<String, Unnamed> {
    let letter = before.piece_on(made.get_source()).filter(|man| *man != Piece::Pawn).map(|man| man.to_string(Color::White));
    let text = format!("{}{}", letter.unwrap_or_default(), made.get_dest());
    if !lend(host, list, before, text.as_bytes())? {
        return Err(Error::ListOutOfRange.into());
    }
    Ok(before.name_standard(list.moves(), made)? + mark(host, list, after)?)
}

fn mark<H: Host>(host: &mut H, list: &mut Lent, after: &Board) -> Result<&'static str, Unnamed> {
    Ok(match menkhodur_moves::in_check(after.record()) {
        false => "",
        // A list that is too long to be lent is not empty.
        true if lend(host, list, after, b"")? && list.is_empty() => "#",
        true => "+",
    })
}

/// Has a list lent. Answers whether there is one.
fn lend<H: Host>(host: &mut H, list: &mut Lent, board: &Board, text: &[u8]) -> Result<bool, Unnamed> {
    match host.lend(board.record(), text, list).map_err(H::trouble) {
        Ok(()) => Ok(true),
        Err(None) => Ok(false),
        Err(Some(words)) => Err(Unnamed::Trouble(words)),
    }
}
