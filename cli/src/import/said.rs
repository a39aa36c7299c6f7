//! What is said of games: a line for each that is refused, with its place, and for each note.

use super::refused::Refusal;
use super::tally::Tally;
use super::writer::Duplicate;
use crate::explain;
use crate::games::Game;
use crate::json::Object;
use crate::options::Stop;
use crate::output::Output;
use crate::told;

pub struct Said {
    pub output: Output<Tally>,
    pub json: bool,
    /// Whether the lines go to a terminal.
    pub seen: bool,
    /// Whether the work goes on when nobody reads the lines any more, as it does if games are filed.
    pub deaf: bool,
    /// Whether a line could not be written.
    pub failed: bool,
}

/// A game's input, its number there, and its line.
#[derive(Clone, Copy)]
pub struct Which<'a> {
    pub name: &'a [u8],
    pub number: u64,
    pub line: u64,
}

/// A note that refuses nothing.
pub struct Note {
    /// A short name, for scripts.
    pub name: &'static str,
    pub words: String,
}

impl Said {
    /// Puts text; nothing any more if its reader has gone and that ends nothing.
    fn put(&mut self, bytes: &[u8]) -> Result<(), Stop> {
        let put = self.output.put(bytes);
        self.heard(put)
    }

    pub fn flush(&mut self) -> Result<(), Stop> {
        let flushed = self.output.flush();
        self.heard(flushed)
    }

    fn heard(&mut self, put: Result<(), Stop>) -> Result<(), Stop> {
        match put {
            Err(Stop::Closed(_)) if self.deaf => Ok(()),
            put => {
                self.failed |= put.is_err();
                put
            }
        }
    }

    pub fn refused(&mut self, which: Which<'_>, game: &Game, refusal: &Refusal) -> Result<(), Stop> {
        if self.json {
            return self.put(refused_object(which, game, refusal).as_bytes());
        }
        self.put_name(which.name)?;
        self.put(refused(which.number, game, refusal).as_bytes())
    }

    pub fn note(&mut self, which: Which<'_>, note: &Note) -> Result<(), Stop> {
        if self.json {
            return self.put((note_object(which, note).end() + "\n").as_bytes());
        }
        self.put_name(which.name)?;
        self.put(format!(":{}: game {} note: {}\n", which.line, which.number, note.words).as_bytes())
    }

    pub fn duplicate(&mut self, duplicate: &Duplicate) -> Result<(), Stop> {
        let Duplicate { name, line, twin } = duplicate;
        let words = format!("the game equals game {} of {}, and is filed beside it", twin.of, twin.source);
        let (note, which) = (Note { name: "duplicate", words }, Which { name, number: twin.number, line: *line });
        if self.json {
            let object = note_object(which, &note).text("source", &twin.source).raw("of", twin.of);
            return self.put((object.end() + "\n").as_bytes());
        }
        self.note(which, &note)
    }

    /// The end of what is said, with a last object if there are objects.
    pub fn last(&mut self, object: &str) -> Result<(), Stop> {
        if self.json && !self.failed {
            self.put([object, "\n"].concat().as_bytes())?;
        }
        self.flush()
    }

    /// Lines were put whole: this is what was done until then.
    pub fn mark(&mut self, tally: &Tally) {
        self.output.status = tally.status();
        self.output.mark(*tally);
    }

    fn put_name(&mut self, name: &[u8]) -> Result<(), Stop> {
        match self.seen {
            true => self.put(told::visible(name).as_bytes()),
            false => self.put(name),
        }
    }
}

/// What stands behind the input's name: the place, why, and the text of the place with a caret.
pub fn refused(number: u64, game: &Game, refusal: &Refusal) -> String {
    let spot = refusal.spot(game);
    let answer = if refusal.answer == 0 { "-".to_string() } else { refusal.answer.to_string() };
    let (Refusal { kind, reason, .. }, text) = (refusal, told::visible(refusal.shown()));
    let line = format!(":{}:{}: game {number} ! {answer} {kind} {reason}: '{text}'\n", spot.line, spot.column);
    if spot.text.is_empty() { line } else { line + &explain::pointed(&spot.text, spot.at) }
}

fn note_object(which: Which<'_>, note: &Note) -> Object {
    let object = Object::new().bytes("file", which.name).raw("game", which.number).raw("line", which.line);
    object.text("note", note.name).text("reason", &note.words)
}

fn refused_object(which: Which<'_>, game: &Game, refusal: &Refusal) -> String {
    let spot = refusal.spot(game);
    let object = Object::new().bytes("file", which.name).raw("game", which.number).raw("line", which.line);
    let object = object.raw_or_null("number", (refusal.answer > 0).then_some(refusal.answer)).text("kind", refusal.kind);
    let object = object.raw("at", spot.line).raw("column", spot.column).bytes("token", refusal.shown());
    let object = if spot.text.is_empty() { object } else { object.bytes("text", &spot.text) };
    let object = if spot.from > 1 { object.raw("text_column", spot.from) } else { object };
    object.text("reason", &refusal.reason).end() + "\n"
}
