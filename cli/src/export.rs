//! `menkhodur export`: stored games as a PGN file in the standard's export form.

use crate::import::shelf;
use crate::import::store::{Held, Shelf};
use crate::input;
use crate::layout;
use crate::options::{Asked, Flag, Status, Stop};
use crate::output::Output;
use crate::replayed::Namer;
use crate::roll;
use crate::told::{self, Progress};
use crate::whole::Making;
use std::ffi::OsStr;
use std::fs;
use std::io::{self, IsTerminal};
use std::os::unix::ffi::OsStrExt;

pub const SOURCE: Flag =
    Flag { name: "source", value: Some("NAME"), about: "only the games that were imported from this file, by the name that it had then" };
pub const OUTPUT: Flag =
    Flag { name: "output", value: Some("FILE"), about: "write the games to FILE; - is standard output, as without this option; also -o" };

pub fn run(asked: &Asked) -> Result<Status, Stop> {
    let mut shelf = shelf::open(asked)?;
    let source = asked.value(&SOURCE).map(|name| told::visible(name.as_bytes()));
    match asked.value(&OUTPUT).filter(|word| *word != "-") {
        Some(word) => to_file(asked, word, source, &mut *shelf),
        None => to_output(Export { seen: io::stdout().is_terminal(), ..Export::new(Output::new()?, source) }, &mut *shelf),
    }
}

/// Into a file that takes its place only when all games are in it.
fn to_file(asked: &Asked, word: &OsStr, source: Option<String>, shelf: &mut dyn Shelf) -> Result<Status, Stop> {
    let is_store = asked.value(&shelf::SQLITE).is_some_and(|store| fs::canonicalize(store).ok() == fs::canonicalize(word).ok());
    if is_store && fs::exists(word).unwrap_or(true) {
        return Err(Stop::Trouble([word.as_bytes(), b": it is the store"].concat()));
    }
    let making = Making::begin(word, asked.has(&roll::FORCE))?;
    let file = making.file.try_clone().map_err(|error| Stop::Trouble(input::failed(word, &error)))?;
    let mut export = Export::new(Output::named(file, word.as_bytes()), source);
    export.all(shelf)?;
    export.found()?;
    export.output.flush()?;
    making.place()?;
    told::tell(&[export.tally.shown().as_bytes()]);
    Ok(Status::Well)
}

fn to_output(mut export: Export, shelf: &mut dyn Shelf) -> Result<Status, Stop> {
    let ended = export.all(shelf);
    if ended.is_ok() {
        export.found()?;
    }
    export.output.end(ended, true, export.tally, "games", |tally| (tally.shown(), Status::Well))
}

/// What was written.
#[derive(Clone, Copy, Default)]
struct Tally {
    games: u64,
    moves: u64,
}

impl Tally {
    fn shown(&self) -> String {
        format!("export: {}, {}", told::counted(self.games, "game"), told::counted(self.moves, "move"))
    }
}

struct Export {
    output: Output<Tally>,
    source: Option<String>,
    tally: Tally,
    namer: Namer,
    /// The game that is made.
    text: Vec<u8>,
    /// Whether it goes to a terminal.
    seen: bool,
    progress: Progress,
}

impl Export {
    fn new(output: Output<Tally>, source: Option<String>) -> Export {
        Export { output, source, tally: Tally::default(), namer: Namer::default(), text: vec![], seen: false, progress: Progress::new() }
    }

    fn all(&mut self, shelf: &mut dyn Shelf) -> Result<(), Stop> {
        shelf.each(&mut |game| match &self.source {
            Some(source) if *source != game.source => Ok(()),
            _ => self.put(&game),
        })
    }

    fn put(&mut self, game: &Held) -> Result<(), Stop> {
        self.text.clear();
        self.tally.moves += layout::put(game, &mut self.namer, &mut self.text)?;
        self.tally.games += 1;
        if self.seen {
            self.text = shown(&self.text);
        }
        self.output.put(&self.text)?;
        self.output.mark(self.tally);
        self.progress.so_far(self.tally.games, "game");
        Ok(())
    }

    /// A source without games is a name that is not right.
    fn found(&self) -> Result<(), Stop> {
        match &self.source {
            Some(source) if self.tally.games == 0 => Err(Stop::trouble(format!("--source {source}: the store has no games of it"))),
            _ => Ok(()),
        }
    }
}

/// Lines as a terminal should be given them.
fn shown(text: &[u8]) -> Vec<u8> {
    text.split(|byte| *byte == b'\n').map(told::visible).collect::<Vec<_>>().join("\n").into_bytes()
}
