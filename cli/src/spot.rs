//! A place in a game, for a reader: which line of the file, which column, and what stands there.

use crate::games::Game;

/// A place in a game: its line in the file, its column from 1, and that line or what of it is near, with the place there and the column of
/// its first byte.
pub struct Spot {
    pub line: u64,
    pub column: usize,
    pub text: Vec<u8>,
    pub at: usize,
    pub from: usize,
}

/// How much is shown of a line on either side of a place: a line may be as large as its game.
const NEAR: usize = 4_096;

impl Spot {
    /// The place of an offset in the game's text. Its line is shown as far as it is this game's or stands before it.
    pub fn of(game: &Game, offset: usize) -> Spot {
        let before = &game.text[..offset];
        let begin = before.iter().rposition(|byte| *byte == b'\n').map_or(0, |at| at + 1);
        let line = game.text_line + before.iter().filter(|byte| **byte == b'\n').count() as u64;
        let end = game.text[offset..].iter().position(|byte| *byte == b'\n').map_or(game.text.len(), |more| offset + more);
        let (near, until) = (begin.max(offset.saturating_sub(NEAR)), end.min(offset + NEAR));
        let (front, ahead) = if begin == 0 { (&game.front[..], game.before) } else { (&b""[..], 0) };
        let front = if near == begin { front } else { b"" };
        let mut text = [front, &game.text[near..until]].concat();
        let (at, column) = (front.len() + offset - near, ahead + offset - begin + 1);
        if text.ends_with(b"\r") && text.len() - 1 > at {
            text.pop();
        }
        Spot { line, column, text, at, from: column - at }
    }
    /// The place of an offset in one of the tag pairs that are kept, which is shown alone.
    pub fn of_tag(game: &Game, index: usize, offset: usize) -> Spot {
        let (line, before) = game.tag_places.get(index).copied().unwrap_or((game.line, 0));
        let text = game.tag_pairs().nth(index).unwrap_or_default();
        let near = offset.saturating_sub(NEAR);
        let shown = text[near..text.len().min(offset + NEAR)].to_vec();
        Spot { line, column: before + offset + 1, text: shown, at: offset - near, from: before + near + 1 }
    }

    /// The front of a line of which nothing is kept.
    pub fn of_line(line: u64) -> Spot {
        Spot { line, column: 1, text: vec![], at: 0, from: 1 }
    }
}
