//! `menkhodur keys`: the key of each line, or what is wrong with it; with `--check`, the lines that are not their own keys; with `--settle`, by
//! the keys of settled records.

use crate::input::{self, Lines, Place};
use crate::json::Object;
use crate::judged::{Judged, Judges, Key};
use crate::options::{Asked, Flag, Status, Stop};
use crate::output::Output;
use crate::standard::{self, Warning};
use crate::told::{self, Progress};
use menkhodur::lent::MAX_FEN;
use menkhodur::{Board, Error};
use std::io::{self, IsTerminal, Write};

pub const CHECK: Flag = Flag { name: "check", value: None, about: "print only the lines that are not their own key" };
pub const SETTLE: Flag =
    Flag { name: "settle", value: None, about: "clear an en passant file that no pawn can use, so that one position has one key" };
pub const STRICT: Flag =
    Flag { name: "strict", value: None, about: "refuse what `menkhodur explain` warns about, as `! strict OFFSET NAME`" };
pub const CRLF: Flag =
    Flag { name: "crlf", value: None, about: "lines end as on Windows: a carriage return at the end of one is no part of it" };
pub const JSON: Flag = Flag { name: "json", value: None, about: "print one JSON object per line" };

pub fn run(asked: &Asked) -> Result<Status, Stop> {
    let form = Form {
        check: asked.has(&CHECK),
        settle: asked.has(&SETTLE),
        strict: asked.has(&STRICT),
        crlf: asked.has(&CRLF),
        json: asked.has(&JSON),
        seen: io::stdout().is_terminal(),
    };
    let mut keys = Keys {
        form,
        judges: Judges::new(form.settle),
        output: Output::new()?,
        tally: Tally::default(),
        odd: vec![],
        bare: vec![],
        made: vec![],
        progress: Progress::new(),
    };
    let mut whole = true;
    let ended = input::read(&asked.words, &mut keys, &mut whole);
    keys.output.end(ended, whole, keys.tally, "lines", |tally| (tally.shown(form), tally.status()))
}

#[derive(Clone, Copy)]
struct Form {
    check: bool,
    settle: bool,
    strict: bool,
    crlf: bool,
    json: bool,
    /// The output goes to a terminal.
    seen: bool,
}

/// What came of the lines; `renamed` and `unsettled` are accepted and not their own keys, and counted only with `--check`.
#[derive(Clone, Copy, Default)]
struct Tally {
    accepted: u64,
    renamed: u64,
    unsettled: u64,
    refused: u64,
}

impl Tally {
    fn lines(&self) -> u64 {
        self.accepted + self.renamed + self.unsettled + self.refused
    }

    fn status(&self) -> Status {
        if self.accepted == self.lines() { Status::Well } else { Status::Found }
    }

    /// The last line of standard error; scripts may read it.
    fn shown(&self, form: Form) -> String {
        if !form.check {
            return told::tallied(self.accepted, self.refused, "line");
        }
        let lines = told::counted(self.lines(), "line");
        let (keys, names) = (told::counted(self.accepted, "key"), told::counted(self.renamed, "second name"));
        let unsettled = if form.settle { format!(", {}", told::counted(self.unsettled, "unsettled key")) } else { String::new() };
        format!("{lines}, {keys}, {names}{unsettled}, {} refused", self.refused)
    }
}

/// What an accepted text is.
#[derive(Clone, Copy, PartialEq, Eq)]
enum Name {
    /// The key that is printed for it.
    Own,
    /// Its record's key, but the record is not settled.
    Unsettled,
    /// No key.
    Second,
}

impl Name {
    /// Of a line that is not the key printed for it.
    fn of(line: &[u8], key: Key<'_>) -> Name {
        let is_key = || Board::from_fen(line).is_ok_and(|board| board.to_fen().as_bytes() == line);
        if key.cleared && is_key() { Name::Unsettled } else { Name::Second }
    }
}

/// What is said about a line.
#[derive(Clone, Copy)]
enum Said<'a> {
    Key(&'a [u8], Name),
    Refused(Error),
    Odd(Warning),
    Long,
}

struct Keys {
    form: Form,
    judges: Judges,
    output: Output<Tally>,
    tally: Tally,
    odd: Vec<Warning>,
    /// Lines without their carriage returns.
    bare: Vec<u8>,
    /// A line of output in the making.
    made: Vec<u8>,
    progress: Progress,
}

impl Lines for Keys {
    fn lines(&mut self, place: Place<'_>, text: &[u8]) -> Result<u64, Stop> {
        if !self.form.crlf {
            return self.judge(place, text);
        }
        let mut bare = std::mem::take(&mut self.bare);
        without_returns(text, &mut bare);
        let judged = self.judge(place, &bare);
        self.bare = bare;
        judged
    }

    fn long(&mut self, place: Place<'_>) -> Result<(), Stop> {
        self.put(place, b"", Said::Long)
    }

    fn flush(&mut self) -> Result<(), Stop> {
        self.output.flush()
    }
}

impl Keys {
    fn judge(&mut self, place: Place<'_>, text: &[u8]) -> Result<u64, Stop> {
        let before = self.tally.lines();
        let mut judges = std::mem::replace(&mut self.judges, Judges::none());
        let mut ended = Ok(());
        for (part, judged) in judges.judge(text) {
            let line = place.line + (self.tally.lines() - before);
            ended = ended.and_then(|()| self.judged(part, judged, Place { line, ..place }));
        }
        self.judges = judges;
        self.progress.lines(self.tally.lines());
        ended.map(|()| self.tally.lines() - before)
    }

    fn judged(&mut self, text: &[u8], judged: &Judged, place: Place<'_>) -> Result<(), Stop> {
        if self.form.check || self.form.strict || self.form.json { self.told(text, judged, place) } else { self.plain(judged) }
    }

    /// As the proved program `keys`: one line per line. What the lines are is not looked at.
    fn plain(&mut self, judged: &Judged) -> Result<(), Stop> {
        for answer in judged.answers() {
            let space = self.output.space(MAX_FEN + 1)?;
            let length = match answer {
                Ok(Key { text, .. }) => {
                    space[..text.len()].copy_from_slice(text);
                    self.tally.accepted += 1;
                    text.len()
                }
                Err(refused) => {
                    self.tally.refused += 1;
                    refusal(refused, space)
                }
            };
            space[length] = b'\n';
            self.output.advance(length + 1);
            self.output.status = self.tally.status();
            self.output.mark(self.tally);
        }
        Ok(())
    }

    fn told(&mut self, text: &[u8], judged: &Judged, mut place: Place<'_>) -> Result<(), Stop> {
        let mut left = text;
        for answer in judged.answers() {
            left = self.line(place, left, answer)?;
            place.line += 1;
        }
        Ok(())
    }

    /// The first line of `left`; answers what is left behind it. A line that is its own key is known by its bytes, without looking for its
    /// end, and nothing is odd about it.
    fn line<'a>(&mut self, place: Place<'_>, left: &'a [u8], answer: Result<Key<'_>, Error>) -> Result<&'a [u8], Stop> {
        if let Ok(Key { text, .. }) = answer {
            if let Some(rest @ ([] | [b'\n', ..])) = left.strip_prefix(text) {
                self.put(place, text, Said::Key(text, Name::Own))?;
                return Ok(rest.get(1..).unwrap_or_default());
            }
        }
        let length = left.iter().position(|byte| *byte == b'\n').unwrap_or(left.len());
        let line = &left[..length];
        let said = match answer {
            Ok(key) => self.first_oddity(line).map_or_else(|| Said::Key(key.text, Name::of(line, key)), Said::Odd),
            Err(refused) => Said::Refused(refused),
        };
        self.put(place, line, said)?;
        Ok(left.get(length + 1..).unwrap_or_default())
    }

    /// What `--strict` refuses a line for.
    fn first_oddity(&mut self, line: &[u8]) -> Option<Warning> {
        if !self.form.strict {
            return None;
        }
        standard::find(line, &mut self.odd);
        self.odd.first().copied()
    }

    /// Counts a line, and prints what is said about it.
    fn put(&mut self, place: Place<'_>, line: &[u8], said: Said<'_>) -> Result<(), Stop> {
        match said {
            Said::Key(_, Name::Unsettled) if self.form.check => self.tally.unsettled += 1,
            Said::Key(_, Name::Second) if self.form.check => self.tally.renamed += 1,
            Said::Key(..) => self.tally.accepted += 1,
            Said::Refused(_) | Said::Odd(_) | Said::Long => self.tally.refused += 1,
        }
        if self.form.check && matches!(said, Said::Key(_, Name::Own)) {
            return Ok(());
        }
        self.output.status = self.tally.status();
        self.made.clear();
        match self.form {
            Form { json: true, settle, .. } => self.made.extend(object(place, line, said, settle).bytes()),
            Form { check: true, seen: true, .. } => checked(place, told::visible(line).as_bytes(), said, &mut self.made),
            Form { check: true, .. } => checked(place, line, said, &mut self.made),
            _ => answered(said, &mut self.made),
        }
        self.made.push(b'\n');
        self.output.put(&self.made)?;
        self.output.mark(self.tally);
        Ok(())
    }
}

/// Lines without a carriage return at their end.
fn without_returns(text: &[u8], bare: &mut Vec<u8>) {
    bare.clear();
    for line in text.split_inclusive(|byte| *byte == b'\n') {
        let (line, end) = line.strip_suffix(b"\n").map_or((line, &b""[..]), |line| (line, b"\n"));
        bare.extend(line.strip_suffix(b"\r").unwrap_or(line));
        bare.extend(end);
    }
}

/// `! N OFFSET`, as the proved program `keys` has it.
fn refusal(refused: Error, mut room: &mut [u8]) -> usize {
    let before = room.len();
    write!(room, "! {} {}", refused.number(), refused.offset().unwrap_or_default()).expect("two numbers fit where a key does");
    before - room.len()
}

/// One line of output for a line of input.
fn answered(said: Said<'_>, made: &mut Vec<u8>) {
    match said {
        Said::Key(key, _) => made.extend(key),
        Said::Refused(refused) => {
            let mut room = [0; MAX_FEN];
            let length = refusal(refused, &mut room);
            made.extend(&room[..length]);
        }
        Said::Odd(warning) => made.extend(format!("! strict {} {}", warning.offset, warning.oddity.name()).bytes()),
        Said::Long => made.extend(b"! long"),
    }
}

/// `FILE:LINE: TEXT -> KEY`, `FILE:LINE: TEXT => KEY` or `FILE:LINE: TEXT ! N OFFSET reason`. A line that was too long is not kept.
fn checked(place: Place<'_>, line: &[u8], said: Said<'_>, made: &mut Vec<u8>) {
    made.extend(place.name);
    made.extend(format!(":{}: ", place.line).bytes());
    made.extend(line);
    if !matches!(said, Said::Long) {
        made.push(b' ');
    }
    if let Said::Key(_, name) = said {
        made.extend(if name == Name::Unsettled { b"=> " } else { b"-> " });
    }
    answered(said, made);
    match said {
        Said::Key(..) => {}
        Said::Refused(refused) => made.extend(format!(" {}", refused.meaning()).bytes()),
        Said::Odd(warning) => made.extend(format!(": {}", warning.oddity).bytes()),
        Said::Long => made.extend(format!(" {}", input::too_long()).bytes()),
    }
}

fn object(place: Place<'_>, line: &[u8], said: Said<'_>, settle: bool) -> String {
    let object = Object::new().bytes("file", place.name).raw("line", place.line);
    match said {
        Said::Key(key, name) => {
            let object = object.bytes("text", line).bytes("key", key);
            if settle { object.raw("unsettled", name == Name::Unsettled) } else { object }
        }
        Said::Refused(refused) => {
            let offset = refused.offset().unwrap_or_default();
            object.bytes("text", line).raw("number", refused.number()).raw("offset", offset).text("reason", refused.meaning())
        }
        Said::Odd(warning) => {
            let object = object.bytes("text", line).text("strict", warning.oddity.name()).raw("offset", warning.offset);
            object.text("reason", &warning.oddity.to_string())
        }
        Said::Long => object.raw("long", true).text("reason", &input::too_long()),
    }
    .end()
}
