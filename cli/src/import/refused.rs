//! Why a game is not filed, or an import goes no further.

use super::store::Refused;
use crate::games::Game;
use crate::options::Stop;
use crate::spot::Spot;
use crate::told;

/// What is wrong with a game: the kind, the archive's number or 0, the place, words, and the text that is meant.
#[derive(Debug)]
pub struct Refusal {
    pub kind: &'static str,
    pub answer: u64,
    pub at: At,
    pub reason: String,
    pub text: Vec<u8>,
}

/// A place in a game.
#[derive(Clone, Copy, Debug, PartialEq, Eq)]
pub enum At {
    /// In its move text.
    Text(usize),
    /// In one of its tag pairs.
    Tag { index: usize, offset: usize },
    /// In a line that is not kept.
    Line(u64),
}

impl Refusal {
    /// The front of the text: a word or a tag's value may be as large as a game.
    pub fn shown(&self) -> &[u8] {
        cut(&self.text)
    }

    pub fn spot(&self, game: &Game) -> Spot {
        match self.at {
            At::Text(offset) => Spot::of(game, offset),
            At::Tag { index, offset } => Spot::of_tag(game, index, offset),
            At::Line(line) => Spot::of_line(line),
        }
    }

    /// What a store keeps of it.
    pub fn row(&self, number: u64, game: &Game) -> Refused {
        let Spot { line: at_line, column, .. } = self.spot(game);
        let text = told::visible(self.shown());
        Refused { number, line: game.line, at_line, at_column: column as u64, answer: self.answer, kind: self.kind, text }
    }
}

/// As much of a text as is told of it.
pub fn cut(text: &[u8]) -> &[u8] {
    const MOST: usize = 128;
    &text[..text.len().min(MOST)]
}

/// How the playing of a game has ended before its end.
#[derive(Debug)]
pub enum Ended {
    Refused(Refusal),
    Stopped(Stop),
}

impl From<Refusal> for Ended {
    fn from(refusal: Refusal) -> Ended {
        Ended::Refused(refusal)
    }
}

impl From<Stop> for Ended {
    fn from(stop: Stop) -> Ended {
        Ended::Stopped(stop)
    }
}
