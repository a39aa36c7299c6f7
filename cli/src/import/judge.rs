//! What an import says of one game: whether it can be kept, where it starts, and what its moves come to.

use super::played::{Host, Played, Player};
use super::refused::{At, Ended, Refusal};
use super::start::Starts;
use crate::games::Game;
use crate::options::Stop;
use crate::pgn;
use menkhodur::lent;

/// The most tag pairs of a game.
const MOST_TAGS: usize = 65_536;

/// Whether what was cut is a game: comments before the first, or behind a result, are none.
pub fn is_game(game: &Game) -> bool {
    game.tagged || game.tokens || game.large.is_some() || lent::pgn_check(&game.text).is_err()
}

pub struct Judge<H> {
    /// The most MB of a game.
    limit: usize,
    player: Player<H>,
    starts: Starts,
}

impl<H: Host> Judge<H> {
    pub fn new(limit: usize, player: Player<H>) -> Result<Judge<H>, Stop> {
        Ok(Judge { limit, player, starts: Starts::new()? })
    }

    pub fn judge(&mut self, game: &Game) -> Result<Played, Ended> {
        let large = |line: u64, reason: String| Refusal { kind: "large", answer: 0, at: At::Line(line), reason, text: vec![] };
        if let Some(line) = game.large {
            return Err(large(line, pgn::large(self.limit)).into());
        }
        if game.tag_places.len() > MOST_TAGS {
            return Err(large(game.line, format!("the game has more than {MOST_TAGS} tag pairs")).into());
        }
        let start = self.starts.of(game)?;
        self.player.play(&game.text, &start)
    }

    /// No game is judged any more.
    pub fn end(&mut self) -> Result<(), Stop> {
        self.player.end()
    }
}
