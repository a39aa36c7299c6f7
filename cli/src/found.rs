//! `menkhodur games`: which stored games came to a position, and when.

use crate::import::store::{Held, Shelf};
use crate::import::{self, shelf};
use crate::json::Object;
use crate::layout::{self, UNKNOWN};
use crate::options::{Asked, Flag, Status, Stop};
use crate::output::Output;
use crate::replayed::{self, Namer, Played};
use crate::standard;
use crate::told::{self, Progress};
use crate::{entry, explain};
use menkhodur::Board;
use std::os::unix::ffi::OsStrExt;

pub const POSITION: Flag = Flag { name: "position", value: Some("FEN"), about: "the position; counters and spelling do not matter" };
pub const JSON: Flag = Flag { name: "json", value: None, about: "print one JSON object for each place" };

pub fn run(asked: &Asked) -> Result<Status, Stop> {
    let wanted = wanted(asked)?;
    let mut shelf = shelf::open(asked)?;
    let mut found = Found::new(wanted, asked.has(&JSON), Output::new()?);
    let ended = found.search(&mut *shelf);
    found.output.end(ended, true, found.tally, "places", |tally| (tally.shown(), tally.status()))
}

/// The settled position that is asked for. What is odd in its text is told, for it may be another one than was meant.
fn wanted(asked: &Asked) -> Result<Board, Stop> {
    let Some(text) = asked.value(&POSITION) else { return Err(Stop::trouble("--position FEN is needed; see menkhodur games --help")) };
    let text = text.as_bytes();
    let pointed = |offset: usize| explain::pointed(text, offset);
    let told = |said: &str, offset: usize| [b"--position: ", said.as_bytes(), b"\n", pointed(offset).trim_end().as_bytes()].concat();
    let board = Board::from_fen(text).map_err(|refused| Stop::Trouble(told(&refused.to_string(), refused.offset().unwrap_or_default())))?;
    let mut warnings = vec![];
    standard::find(text, &mut warnings);
    for warning in warnings.iter().filter(|warning| import::bars(warning.oddity)) {
        told::tell(&[&told(&format!("warning {}: {}", warning.oddity.name(), warning.oddity), warning.offset)]);
    }
    Ok(board.settled())
}

/// What was found.
#[derive(Clone, Copy, Default)]
struct Tally {
    games: u64,
    places: u64,
}

impl Tally {
    fn shown(&self) -> String {
        format!("games: {}, {}", told::counted(self.games, "game"), told::counted(self.places, "place"))
    }

    fn status(&self) -> Status {
        if self.places == 0 { Status::Found } else { Status::Well }
    }
}

struct Found {
    wanted: Board,
    json: bool,
    output: Output<Tally>,
    tally: Tally,
    /// The game of the last place, by its source and number.
    last: Option<(String, u64)>,
    looked: u64,
    namer: Namer,
    progress: Progress,
}

impl Found {
    fn new(wanted: Board, json: bool, mut output: Output<Tally>) -> Found {
        output.status = Status::Found;
        let (tally, namer, progress) = (Tally::default(), Namer::default(), Progress::new());
        Found { wanted, json, output, tally, last: None, looked: 0, namer, progress }
    }

    /// By places, if the store has them, else by all rolls.
    fn search(&mut self, shelf: &mut dyn Shelf) -> Result<(), Stop> {
        let key = self.wanted.to_fen();
        if shelf.at(key.as_bytes(), &mut |game, ply| self.at(&game, ply))? {
            return Ok(());
        }
        shelf.each(&mut |game| self.through(&game))
    }

    /// A place that the store has told.
    fn at(&mut self, game: &Held, ply: u64) -> Result<(), Stop> {
        let roll = replayed::roll(game)?;
        let led = replayed::moves(&roll).find(|played| played.ply == ply);
        let stands = led.map(|played| played.after).or((ply == 0).then_some(roll.start));
        if stands.is_none_or(|board| !self.is_wanted(&board)) {
            return Err(replayed::bad(game, &format!("by its places it came to the position at ply {ply}, and by its roll it did not")));
        }
        self.looked();
        self.put(game, led.as_ref())
    }

    fn through(&mut self, game: &Held) -> Result<(), Stop> {
        let roll = replayed::roll(game)?;
        if self.is_wanted(&roll.start) {
            self.put(game, None)?;
        }
        for played in replayed::moves(&roll) {
            if self.is_wanted(&played.after) {
                self.put(game, Some(&played))?;
            }
        }
        self.looked();
        Ok(())
    }

    /// Counters are no part of a key.
    fn is_wanted(&self, board: &Board) -> bool {
        board.numbers() == self.wanted.numbers()
    }

    fn looked(&mut self) {
        self.looked += 1;
        self.progress.so_far(self.looked, "game");
    }

    fn put(&mut self, game: &Held, led: Option<&Played>) -> Result<(), Stop> {
        let name = led.map(|played| self.namer.name(game, played)).transpose()?;
        let line = if self.json { object(game, led, name.as_deref()) } else { line(game, led, name.as_deref()) };
        self.output.put((line + "\n").as_bytes())?;
        self.count(game);
        self.output.status = Status::Well;
        self.output.mark(self.tally);
        Ok(())
    }

    fn count(&mut self, game: &Held) {
        self.tally.places += 1;
        let is_last = self.last.as_ref().is_some_and(|(source, number)| (source, number) == (&game.source, &game.number));
        if !is_last {
            self.tally.games += 1;
            self.last = Some((game.source.clone(), game.number));
        }
    }
}

/// Columns with a tab between them: source, game, line, ply, number and name of the move, white, black, date and result. What would break them
/// is told as `\xNN`.
fn line(game: &Held, led: Option<&Played>, name: Option<&str>) -> String {
    let ply = led.map_or(0, |played| played.ply);
    let number = led.map_or("-".to_string(), |played| entry::number(&played.before));
    let place = [told::visible(game.source.as_bytes()), game.number.to_string(), game.line.to_string(), ply.to_string(), number];
    let tags = shown_tags(game).into_iter().zip(shown(UNKNOWN)).map(|(tag, unknown)| told::visible(tag.unwrap_or(unknown).as_bytes()));
    place.into_iter().chain([name.unwrap_or("-").to_string()]).chain(tags).collect::<Vec<_>>().join("\t")
}

fn object(game: &Held, led: Option<&Played>, name: Option<&str>) -> String {
    let object = Object::new().text("source", &game.source).raw("game", game.number).raw("line", game.line);
    let object = object.raw("ply", led.map_or(0, |played| played.ply));
    let object = object.raw_or_null("number", led.map(|played| played.before.get_full_moves()));
    let side = led.map(|played| played.before.get_side_to_move().to_string());
    let object = object.text_or_null("side", side.as_deref()).text_or_null("move", name);
    let tags = ["white", "black", "date", "result"].into_iter().zip(shown_tags(game));
    tags.fold(object, |object, (name, tag)| object.text_or_null(name, tag)).end()
}

/// White, Black, Date and Result of the seven.
fn shown<T: Copy>([_, _, date, _, white, black, result]: [T; 7]) -> [T; 4] {
    [white, black, date, result]
}

fn shown_tags(game: &Held) -> [Option<&str>; 4] {
    shown(layout::seven(game))
}
