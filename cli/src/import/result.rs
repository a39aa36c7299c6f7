//! Whether a game's result contradicts its board or itself.

use super::played::{Over, Played};
use super::refused::cut;
use super::said::Note;
use crate::games::{self, Game};
use crate::told;

/// What the result of a game contradicts.
pub fn notes(game: &Game, played: &Played) -> Vec<Note> {
    let tag = game.tag_pairs().filter_map(games::parts).find(|(name, _)| *name == b"Result").map(|(_, value)| value);
    let told = game.result.map(str::as_bytes).or(tag);
    let mut notes = vec![];
    if let (Some(tag), Some(result)) = (tag, game.result)
        && tag != result.as_bytes()
    {
        let words = format!("the Result tag is '{}', and the game ends with {result}", told::visible(cut(tag)));
        notes.push(Note { name: "result", words });
    }
    if let (Some(over), Some(result)) = (played.over, told) {
        notes.extend(contradicted(over, played.side, result));
    }
    notes
}

/// What a result contradicts if a side, 0 white or 1 black, has no move left. `*` says of no result what it is.
fn contradicted(over: Over, side: u8, result: &[u8]) -> Option<Note> {
    let (name, owed, is) = match (over, side) {
        (Over::Mate, 0) => ("mate", "0-1", "white is mated"),
        (Over::Mate, _) => ("mate", "1-0", "black is mated"),
        (Over::Stalemate, _) => ("stalemate", "1/2-1/2", "the last position is stalemate"),
    };
    let words = format!("{is}, and the result is '{}'", told::visible(cut(result)));
    (result != owed.as_bytes() && result != b"*").then_some(Note { name, words })
}
