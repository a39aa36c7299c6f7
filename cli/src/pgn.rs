//! `menkhodur pgn`: the games of PGN files, each with its number of moves, or what is wrong with its move text and where.

use crate::explain;
use crate::games::{self, Game, Games};
use crate::input::{self, Lines, Place};
use crate::json::{self, Object};
use crate::options::{Asked, Flag, Status, Stop};
use crate::output::Output;
use crate::spot::Spot;
use crate::told::{self, Progress};
use menkhodur::{Error, MoveText, PgnMove};
use std::ffi::OsStr;
use std::io::{self, IsTerminal};
use std::os::unix::ffi::OsStrExt;

pub const TAGS: Flag = Flag { name: "tags", value: None, about: "print the tag pairs too, one per line" };
pub const MOVES: Flag = Flag { name: "moves", value: None, about: "print the moves too, one per line, each with its level" };
pub const STRICT: Flag =
    Flag { name: "strict", value: None, about: "tell every game that has no result, and end with status 1 if there is one" };
pub const LIMIT: Flag =
    Flag { name: "limit", value: Some("MB"), about: "refuse a game of more than so many MB, 1048576 bytes each; 64 if not told" };
pub const JSON: Flag = Flag { name: "json", value: None, about: "print one JSON object per game" };

pub fn run(asked: &Asked) -> Result<Status, Stop> {
    let form = Form {
        tags: asked.has(&TAGS),
        moves: asked.has(&MOVES),
        strict: asked.has(&STRICT),
        json: asked.has(&JSON),
        limit: limit(asked)?,
        many: asked.words.len() > 1,
        seen: io::stdout().is_terminal(),
    };
    let said = Said { form, output: Output::new()?, tally: Tally::default(), name: vec![], number: 0, made: vec![] };
    let mut pgn = Pgn { games: Games::new(form.limit * MB, form.tags), said, progress: Progress::new() };
    let mut whole = true;
    let ended = input::read(&asked.words, &mut pgn, &mut whole);
    pgn.said.output.end(ended, whole, pgn.said.tally, "games", |tally| (tally.shown(), tally.status()))
}

pub const MB: usize = 1 << 20;

/// The MB that a game may have.
pub fn limit(asked: &Asked) -> Result<usize, Stop> {
    let Some(value) = asked.value(&LIMIT) else { return Ok(64) };
    let number = value.to_str().and_then(|text| text.parse().ok());
    number
        .filter(|number| (1..usize::MAX / 2 / MB).contains(number))
        .ok_or_else(|| Stop::trouble([b"--limit ", value.as_bytes(), b": a number of MB from 1 up is needed"].concat()))
}

#[derive(Clone, Copy)]
struct Form {
    tags: bool,
    moves: bool,
    strict: bool,
    json: bool,
    limit: usize,
    /// Files are told apart.
    many: bool,
    /// The output goes to a terminal.
    seen: bool,
}

/// What came of the games; those without a result are counted only with `--strict`.
#[derive(Clone, Copy, Default)]
struct Tally {
    accepted: u64,
    refused: u64,
    unended: u64,
}

impl Tally {
    fn games(&self) -> u64 {
        self.accepted + self.refused
    }

    fn shown(&self) -> String {
        told::tallied(self.accepted, self.refused, "game")
    }

    fn status(&self) -> Status {
        if self.refused + self.unended == 0 { Status::Well } else { Status::Found }
    }
}

struct Pgn {
    games: Games,
    said: Said,
    progress: Progress,
}

impl Lines for Pgn {
    fn lines(&mut self, mut place: Place<'_>, text: &[u8]) -> Result<u64, Stop> {
        let first = place.line;
        self.said.at(place);
        for line in text.strip_suffix(b"\n").unwrap_or(text).split(|byte| *byte == b'\n') {
            self.games.line(place.line, line, &mut |game| self.said.game(game))?;
            place.line += 1;
        }
        self.progress.so_far(self.said.tally.games(), "game");
        Ok(place.line - first)
    }

    fn longest(&self) -> usize {
        self.said.form.limit * MB
    }

    fn long(&mut self, place: Place<'_>) -> Result<(), Stop> {
        self.said.at(place);
        self.games.long(place.line);
        Ok(())
    }

    /// A game cut short by a failed read is left out: without its end it could be another one.
    fn ended(&mut self, whole: bool) -> Result<(), Stop> {
        if whole {
            self.games.finish(&mut |game| self.said.game(game))?;
        }
        self.games.forget();
        self.said.number = 0;
        Ok(())
    }

    fn flush(&mut self) -> Result<(), Stop> {
        self.said.output.flush()
    }
}

/// What the archive says about a game.
enum Judged {
    Moves { own: u64, variations: u64 },
    Refused(Error),
    Large(u64),
}

/// One walk from move to move; only a text that is refused is checked again, for the place that the check tells.
fn judge(game: &Game) -> Judged {
    if let Some(line) = game.large {
        return Judged::Large(line);
    }
    let text = MoveText::new(&game.text);
    let (mut own, mut variations) = (0, 0);
    for met in text.moves() {
        match met {
            Ok(PgnMove { level: 0, .. }) => own += 1,
            Ok(_) => variations += 1,
            Err(refused) => return Judged::Refused(text.check().err().unwrap_or(refused)),
        }
    }
    Judged::Moves { own, variations }
}

/// What is printed, and what came of the games.
struct Said {
    form: Form,
    output: Output<Tally>,
    tally: Tally,
    name: Vec<u8>,
    /// The last game's, in its file.
    number: u64,
    made: Vec<u8>,
}

impl Said {
    fn at(&mut self, place: Place<'_>) {
        if self.name != place.name {
            self.name = place.name.to_vec();
        }
    }

    fn game(&mut self, game: &Game) -> Result<(), Stop> {
        let judged = judge(game);
        match judged {
            // Comments before the first game, or behind a result, are none.
            Judged::Moves { .. } if !game.tagged && !game.tokens => return Ok(()),
            Judged::Moves { .. } => self.tally.accepted += 1,
            Judged::Refused(_) | Judged::Large(_) => self.tally.refused += 1,
        }
        self.number += 1;
        self.tell_unended(game);
        self.output.status = self.tally.status();
        if self.form.json {
            self.put_object(game, &judged)?
        } else {
            self.put_plain(game, &judged)?
        }
        self.output.mark(self.tally);
        Ok(())
    }

    /// A file that ends in a game may have been cut.
    fn tell_unended(&mut self, game: &Game) {
        if game.result.is_some() || !game.cut && !self.form.strict {
            return;
        }
        self.tally.unended += u64::from(self.form.strict);
        tell_unended(&self.name, game);
    }

    fn put_plain(&mut self, game: &Game, judged: &Judged) -> Result<(), Stop> {
        if self.form.many {
            self.output.put(&self.name)?;
            self.output.put(b": ")?;
        }
        let (told, pointed) = self.plain(game, judged);
        self.output.put(format!("{} {} {told}\n", self.number, game.line).as_bytes())?;
        for tag in game.tags.split_inclusive(|byte| *byte == b'\n') {
            self.output.put(b"  ")?;
            self.put_seen(tag)?;
        }
        self.output.put(pointed.as_bytes())?;
        match judged {
            Judged::Moves { .. } if self.form.moves => self.put_moves(game, |made, _, met| {
                made.extend(format!("  {} ", met.level).bytes());
                made.extend(met.text);
                made.push(b'\n');
            }),
            _ => Ok(()),
        }
    }

    /// A line, with its newline.
    fn put_seen(&mut self, line: &[u8]) -> Result<(), Stop> {
        match line.strip_suffix(b"\n") {
            Some(line) if self.form.seen => self.output.put((told::visible(line) + "\n").as_bytes()),
            _ => self.output.put(line),
        }
    }

    /// `MOVES VARIATIONS RESULT`, or `! N LINE:COLUMN reason`, and then the line with a caret.
    fn plain(&self, game: &Game, judged: &Judged) -> (String, String) {
        match judged {
            Judged::Moves { own, variations } => (format!("{own} {variations} {}", game.result.unwrap_or("-")), String::new()),
            Judged::Large(line) => (format!("! large {line} {}", self.large()), String::new()),
            Judged::Refused(refused) => {
                let Spot { line, column, text, at, .. } = Spot::of(game, refused.offset().unwrap_or_default());
                (format!("! {} {line}:{column} {}", refused.number(), refused.meaning()), explain::pointed(&text, at))
            }
        }
    }

    fn large(&self) -> String {
        large(self.form.limit)
    }

    fn put_object(&mut self, game: &Game, judged: &Judged) -> Result<(), Stop> {
        let object = self.object(game, judged);
        let listed = self.form.moves && matches!(judged, Judged::Moves { .. });
        if !listed {
            return self.output.put((object.end() + "\n").as_bytes());
        }
        self.output.put(object.open("list").as_bytes())?;
        self.put_moves(game, |made, index, met| {
            made.extend(if index == 0 { "" } else { "," }.bytes());
            made.extend(Object::new().bytes("move", met.text).raw("level", met.level).end().bytes());
        })?;
        self.output.put(b"]}\n")
    }

    /// The moves of an accepted game, one by one: all of them together could take many times the room of the game.
    fn put_moves(&mut self, game: &Game, put: impl Fn(&mut Vec<u8>, usize, &PgnMove<'_>)) -> Result<(), Stop> {
        for (index, met) in MoveText::new(&game.text).moves().flatten().enumerate() {
            self.made.clear();
            put(&mut self.made, index, &met);
            self.output.put(&self.made)?;
        }
        Ok(())
    }

    fn object(&self, game: &Game, judged: &Judged) -> Object {
        let object = Object::new().bytes("file", &self.name).raw("game", self.number).raw("line", game.line);
        let object = match judged {
            Judged::Moves { own, variations } => object.raw("moves", own).raw("variations", variations),
            Judged::Large(line) => object.raw("large", true).raw("at", line).text("reason", &self.large()),
            Judged::Refused(refused) => {
                let Spot { line, column, text, from, .. } = Spot::of(game, refused.offset().unwrap_or_default());
                let object = object.raw("number", refused.number()).raw("at", line).raw("column", column).bytes("text", &text);
                let object = if from > 1 { object.raw("text_column", from) } else { object };
                object.text("reason", refused.meaning())
            }
        };
        let object = object.text_or_null("result", game.result);
        let tags = || game.tags.split(|byte| *byte == b'\n').filter_map(games::parts).map(tag);
        if self.form.tags { object.raw("tags", json::array(tags())) } else { object }
    }
}

/// Tells that a game of an input has no result.
pub fn tell_unended(name: &[u8], game: &Game) {
    let told = match game.cut {
        true => format!(": the file ends in the game of line {}, which has no result", game.line),
        false => format!(": the game of line {} has no result", game.line),
    };
    told::tell(&[input::shown(OsStr::from_bytes(name)), told.as_bytes()]);
}

/// What is wrong with a game that has more MB than it may.
pub fn large(limit: usize) -> String {
    format!("the game has more than {limit} MB, or more than there is memory for")
}

fn tag((name, value): (&[u8], &[u8])) -> String {
    Object::new().bytes("name", name).bytes("value", &games::unquoted(value)).end()
}
