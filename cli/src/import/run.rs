//! The run: inputs are read and cut, games judged one after the other, told, and handed on to a store if there is one.

use super::filed;
use super::filing::Filing;
use super::judge::{self, Judge};
use super::played::{Host, Played, Player};
use super::progress::Progress;
use super::refused::{Ended, Refusal};
use super::result;
use super::said::{Said, Which};
use super::source;
use super::source::Input;
use super::store::{Duplicates, Source, Store};
use super::tally::{End, Tally};
use super::writer::Writer;
use crate::games::{Game, Games};
use crate::input::{self, Lines, Place};
use crate::options::{Status, Stop};
use crate::pgn;
use crate::told;
use std::ffi::{OsStr, OsString};
use std::io::Read;
use std::os::unix::ffi::OsStrExt;

/// What the command line says beside the store and the host.
#[derive(Clone, Copy)]
pub struct Setup {
    /// The most MB of a game.
    pub limit: usize,
    /// The positions of a batch.
    pub batch: u64,
    pub duplicates: Duplicates,
    pub loose: bool,
}

pub struct Import<H> {
    games: Games,
    work: Work<H>,
}

/// What is done with games.
struct Work<H> {
    setup: Setup,
    judge: Judge<H>,
    said: Said,
    filing: Option<Filing>,
    tally: Tally,
    progress: Progress,
    name: Vec<u8>,
    /// The last game's, in its input.
    number: u64,
    /// All games and positions that were judged in this run, filed or not.
    judged: (u64, u64),
}

impl<H: Host> Import<H> {
    pub fn new(setup: &Setup, store: Option<Box<dyn Store>>, said: Said, player: Player<H>, games: Games) -> Result<Import<H>, Stop> {
        let writer = store.map(|store| Writer::new(store, setup.duplicates)).transpose()?;
        let filing = writer.map(|writer| Filing::new(writer, setup.batch));
        let (judge, tally, progress) = (Judge::new(setup.limit, player)?, Tally::default(), Progress::new(None));
        let work = Work { setup: *setup, judge, said, filing, tally, progress, name: vec![], number: 0, judged: (0, 0) };
        Ok(Import { games, work })
    }

    /// Imports the inputs that words name, and tells at the end what was done.
    pub fn run(self, words: &[OsString]) -> Status {
        match self.through(words) {
            Ok((tally, end)) => {
                if let Some(taken) = tally.loosely() {
                    told::tell(&[taken.as_bytes()]);
                }
                told::tell(&[tally.shown(&end).as_bytes()]);
                if end.whole && end.stopped.is_none() { tally.status() } else { Status::Trouble }
            }
            Err(status) => status,
        }
    }

    /// Imports the inputs that words name. If nobody reads the lines any more and that ends all, only a status is left.
    pub fn through(mut self, words: &[OsString]) -> Result<(Tally, End), Status> {
        let words = input::named(words);
        self.work.progress = Progress::new(source::size(&words));
        let (mut room, mut whole) = (input::room(), true);
        let ended = words.iter().try_for_each(|word| {
            whole &= self.input(word, &mut room)?;
            Ok(())
        });
        self.end(ended, whole)
    }

    /// Answers whether the input was read to its end.
    fn input(&mut self, word: &OsStr, room: &mut Vec<u8>) -> Result<bool, Stop> {
        let opened =
            if self.work.filing.is_some() { source::known(word).map(known) } else { source::open(word).map(|input| (None, input)) };
        let (source, mut input) = match opened {
            Ok(opened) => opened,
            Err(error) => {
                told::tell(&[&input::failed(word, &error)]);
                return Ok(false);
            }
        };
        self.read(word, source, &mut input, room)
    }

    /// The same for an input that is open, and that a store knows if there is one.
    pub fn read(&mut self, word: &OsStr, source: Option<Source>, input: &mut impl Read, room: &mut Vec<u8>) -> Result<bool, Stop> {
        self.work.begin(word.as_bytes(), source)?;
        input::read_from(word, input, room, self)
    }

    /// The end, after inputs were read to their ends or not.
    pub fn end(self, ended: Result<(), Stop>, whole: bool) -> Result<(Tally, End), Status> {
        self.work.end(ended, whole)
    }
}

fn known((source, input): (Source, Input)) -> (Option<Source>, Input) {
    (Some(source), input)
}

impl<H: Host> Lines for Import<H> {
    fn lines(&mut self, mut place: Place<'_>, text: &[u8]) -> Result<u64, Stop> {
        let first = place.line;
        for line in text.strip_suffix(b"\n").unwrap_or(text).split(|byte| *byte == b'\n') {
            self.games.line(place.line, line, &mut |game| self.work.game(game))?;
            place.line += 1;
        }
        self.work.progress.read(text.len());
        self.work.look_on()?;
        Ok(place.line - first)
    }

    fn longest(&self) -> usize {
        self.work.setup.limit * pgn::MB
    }

    fn long(&mut self, place: Place<'_>) -> Result<(), Stop> {
        self.games.long(place.line);
        Ok(())
    }

    /// A game cut short by a failed read is left out: without its end it could be another one.
    fn ended(&mut self, whole: bool) -> Result<(), Stop> {
        if whole {
            self.games.finish(&mut |game| self.work.game(game))?;
        }
        self.games.forget();
        self.work.end_input(whole)
    }

    fn flush(&mut self) -> Result<(), Stop> {
        self.work.look_on()?;
        self.work.said.flush()
    }
}

impl<H: Host> Work<H> {
    fn begin(&mut self, name: &[u8], source: Option<Source>) -> Result<(), Stop> {
        (self.name, self.number) = (name.to_vec(), 0);
        match (&mut self.filing, source) {
            (Some(filing), Some(source)) => filing.begin(name, source),
            _ => Ok(()),
        }
    }

    fn game(&mut self, game: &Game) -> Result<(), Stop> {
        if !judge::is_game(game) {
            return Ok(());
        }
        self.number += 1;
        if let Some(filing) = &mut self.filing
            && filing.passes(game)?
        {
            self.tally.before += 1;
            return Ok(());
        }
        if game.cut && game.result.is_none() {
            pgn::tell_unended(&self.name, game);
        }
        match self.judge.judge(game) {
            Ok(played) => self.accept(game, played),
            Err(Ended::Refused(refusal)) => self.refuse(game, &refusal),
            Err(Ended::Stopped(stop)) => Err(stop),
        }
    }

    fn accept(&mut self, game: &Game, played: Played) -> Result<(), Stop> {
        let notes = result::notes(game, &played);
        for note in &notes {
            self.said.note(Which { name: &self.name, number: self.number, line: game.line }, note)?;
        }
        self.tally.notes += notes.len() as u64;
        let moves = played.moves + played.variations;
        self.judged = (self.judged.0 + 1, self.judged.1 + moves + 1);
        match &mut self.filing {
            Some(filing) => {
                let counted = Tally { loose: played.loose, ..Tally::default() };
                filing.file(filed::game(self.number, game, played), &counted);
            }
            None => self.tally.add(&Tally { filed: 1, moves, positions: moves + 1, loose: played.loose, ..Tally::default() }),
        }
        if !notes.is_empty() {
            self.said.mark(&self.tally);
        }
        self.send_if_full()
    }

    fn refuse(&mut self, game: &Game, refusal: &Refusal) -> Result<(), Stop> {
        self.said.refused(Which { name: &self.name, number: self.number, line: game.line }, game, refusal)?;
        self.judged.0 += 1;
        match &mut self.filing {
            Some(filing) => filing.refuse(refusal.row(self.number, game)),
            None => self.tally.refused += 1,
        }
        self.said.mark(&self.tally);
        self.send_if_full()
    }

    /// What is told of a batch's games goes out before they are filed: a run that is broken off tells them again or has told them.
    fn send_if_full(&mut self) -> Result<(), Stop> {
        let Some(filing) = self.filing.as_mut().filter(|filing| filing.is_full()) else { return Ok(()) };
        self.said.flush()?;
        filing.send(false)?;
        self.look_on()
    }

    fn end_input(&mut self, whole: bool) -> Result<(), Stop> {
        self.said.flush()?;
        match &mut self.filing {
            Some(filing) => filing.end(whole),
            None => Ok(()),
        }
    }

    /// Counts what commits have told, tells which games equal others, and how far all has come.
    fn look_on(&mut self) -> Result<(), Stop> {
        let filed = self.filing.as_mut().map_or(Ok(vec![]), Filing::filed)?;
        for committed in &filed {
            self.tally.add(&committed.counted);
            self.tally.notes += committed.twins.len() as u64;
        }
        self.progress.so_far(self.judged.0, self.judged.1);
        filed.iter().flat_map(|committed| &committed.twins).try_for_each(|twin| self.said.duplicate(twin))
    }

    /// The end, well or not: what is gathered and was not sent is dropped, what was sent is filed or told as trouble, and then all is counted.
    fn end(mut self, ended: Result<(), Stop>, whole: bool) -> Result<(Tally, End), Status> {
        let ended = ended.and_then(|()| self.judge.end());
        let finished = self.filing.as_mut().map_or(Ok(()), Filing::finish);
        let counted = self.look_on();
        let ended = ended.and(finished).and(counted);
        let object = self.tally.object(&self.ending(&ended, whole), self.setup.loose);
        let ended = ended.and(self.said.last(&object));
        if let Err(Stop::Closed(status)) = ended {
            return Err(if whole { status } else { Status::Trouble });
        }
        let end = self.ending(&ended, whole);
        // Without a store, what was done is what was told.
        let tally = if end.dry && self.said.failed { self.said.output.settled() } else { self.tally };
        Ok((tally, end))
    }

    fn ending(&self, ended: &Result<(), Stop>, whole: bool) -> End {
        let why = |stop: &Stop| match stop {
            Stop::Trouble(why) => Some(told::visible(why)),
            Stop::Closed(_) => None,
        };
        End { dry: self.filing.is_none(), whole, stopped: ended.as_ref().err().and_then(why) }
    }
}
