//! One game of a PGN file, read as an import reads it.

use super::judge::{self, Judge};
use super::played::{Form, Player};
use super::refused::Ended;
use super::said;
use crate::games::{Game, Games};
use crate::input::{self, Lines, Place};
use crate::options::{Status, Stop};
use crate::pgn;
use crate::told;
use menkhodur_moves::Legal;
use std::ffi::OsStr;
use std::os::unix::ffi::OsStrExt;

/// The roll of the game with a number, from 1, in the input that a word names. A game that is refused is trouble, in the words of an import.
pub fn roll(word: &OsStr, number: u64, limit: usize) -> Result<Vec<u8>, Stop> {
    let form = Form { variations: false, loose: false, kept: true };
    let judge = Judge::new(limit, Player::new(Legal, form))?;
    let search = Search { name: word.as_bytes(), wanted: number, met: 0, judge, found: None };
    let mut one = One { games: Games::new(limit * pgn::MB, true), limit, search };
    let mut file = input::open(word).map_err(|error| Stop::Trouble(input::failed(word, &error)))?;
    let read = input::read_from(word, &mut file, &mut input::room(), &mut one);
    match (one.search.found, read) {
        (Some(found), _) => found,
        (None, Err(stop)) => Err(stop),
        (None, Ok(whole)) => {
            let (games, cut) = (told::counted(one.search.met, "game"), told::incomplete(whole));
            Err(Stop::Trouble([input::shown(word), format!(": game {number} is not there, it has {games}{cut}").as_bytes()].concat()))
        }
    }
}

struct One<'a> {
    games: Games,
    limit: usize,
    search: Search<'a>,
}

/// What is looked for, and what was found.
struct Search<'a> {
    name: &'a [u8],
    wanted: u64,
    /// How many games have come.
    met: u64,
    judge: Judge<Legal>,
    found: Option<Result<Vec<u8>, Stop>>,
}

impl Lines for One<'_> {
    fn lines(&mut self, mut place: Place<'_>, text: &[u8]) -> Result<u64, Stop> {
        let first = place.line;
        for line in text.strip_suffix(b"\n").unwrap_or(text).split(|byte| *byte == b'\n') {
            self.games.line(place.line, line, &mut |game| self.search.game(game))?;
            place.line += 1;
        }
        Ok(place.line - first)
    }

    fn longest(&self) -> usize {
        self.limit * pgn::MB
    }

    fn long(&mut self, place: Place<'_>) -> Result<(), Stop> {
        self.games.long(place.line);
        Ok(())
    }

    fn ended(&mut self, whole: bool) -> Result<(), Stop> {
        if whole { self.games.finish(&mut |game| self.search.game(game)) } else { Ok(()) }
    }

    fn flush(&mut self) -> Result<(), Stop> {
        Ok(())
    }
}

impl Search<'_> {
    fn game(&mut self, game: &Game) -> Result<(), Stop> {
        if !judge::is_game(game) {
            return Ok(());
        }
        self.met += 1;
        if self.met != self.wanted {
            return Ok(());
        }
        if game.cut && game.result.is_none() {
            pgn::tell_unended(self.name, game);
        }
        self.found = Some(match self.judge.judge(game) {
            Ok(played) => Ok(played.roll),
            Err(Ended::Refused(refusal)) => {
                let told = [told::visible(self.name), said::refused(self.wanted, game, &refusal)].concat();
                Err(Stop::trouble(told.trim_end()))
            }
            Err(Ended::Stopped(stop)) => Err(stop),
        });
        // Nothing behind it is read: whoever has asked looks at what was found.
        Err(Stop::Closed(Status::Well))
    }
}
