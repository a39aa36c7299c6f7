//! `menkhodur import`: the games of PGN files into a store, each position once. Every judgement of a text is the archive's; the lists of moves are
//! a host's.

mod bits;
mod digest;
mod filed;
mod filing;
mod judge;
mod known;
mod loose;
#[cfg(test)]
mod made;
pub mod named;
mod names;
mod numbered;
pub mod one;
mod patience;
mod piped;
pub mod played;
mod postgres;
mod progress;
mod refused;
mod result;
mod rows;
mod run;
mod said;
mod schema;
mod sequences;
pub mod shelf;
mod sorted;
mod source;
mod sqlite;
mod start;
pub mod store;
#[cfg(test)]
mod stores;
mod tags;
mod tally;
#[cfg(test)]
mod tests;
mod trouble;
mod twins;
mod why;
mod writer;
mod written;

pub use digest::SEVEN;
pub use start::bars;

use crate::games::Games;
use crate::options::{Asked, Flag, Status, Stop};
use crate::output::Output;
use crate::pgn;
use menkhodur_moves::Legal;
use piped::Piped;
use played::{Form, Host, Player};
use run::{Import, Setup};
use said::Said;
use std::ffi::OsStr;
use std::io::{self, IsTerminal};
use std::os::unix::ffi::OsStrExt;
use store::{Duplicates, Options, Store};

pub const SQLITE: Flag =
    Flag { name: "sqlite", value: Some("FILE"), about: "file into this SQLite database, which is made if it is missing" };
pub const POSTGRES: Flag = Flag {
    name: "postgres",
    value: Some("CONNINFO"),
    about: "file into the PostgreSQL database that libpq finds by this, as 'dbname=chess'",
};
pub const DRY_RUN: Flag = Flag { name: "dry-run", value: None, about: "file nothing, and tell what would be refused" };
pub const VARIATIONS: Flag =
    Flag { name: "variations", value: None, about: "play the moves of variations too, and file them and their positions" };
pub const PLACES: Flag = Flag { name: "places", value: None, about: "file which position each game came to at which move" };
pub const LOOSE: Flag =
    Flag { name: "loose", value: None, about: "take what the PGN standard would not have if it has one reading, and count it" };
pub const DUPLICATES: Flag = Flag {
    name: "duplicates",
    value: Some("HOW"),
    about: "keep, skip or tell: file a game that equals one filed before, pass over it, or file it with a note; tell if not told",
};
pub const BATCH: Flag =
    Flag { name: "batch", value: Some("N"), about: "file whole games in one transaction until they have N positions; 1500000 if not told" };
pub const HOST: Flag = Flag { name: "host", value: Some("COMMAND"), about: "ask this command for the moves of each position" };
pub const JSON: Flag = Flag { name: "json", value: None, about: "print one JSON object per refused game and per note, and one at the end" };

/// How many positions a transaction has, if it is not told.
const BATCH_POSITIONS: u64 = 1_500_000;

pub fn run(asked: &Asked) -> Result<Status, Stop> {
    let options = Options { places: asked.has(&PLACES), duplicates: duplicates(asked)? };
    let setup = Setup { limit: pgn::limit(asked)?, batch: batch(asked)?, duplicates: options.duplicates, loose: asked.has(&LOOSE) };
    let (into, output) = (into(asked)?, Output::new()?);
    let store = into.open(&options).map_err(Stop::trouble)?;
    let form = Form { variations: asked.has(&VARIATIONS), loose: setup.loose, kept: store.is_some() };
    let said = Said { output, json: asked.has(&JSON), seen: io::stdout().is_terminal(), deaf: store.is_some(), failed: false };
    match asked.value(&HOST) {
        Some(command) => import(asked, &setup, store, said, Player::new(Piped::start(command).map_err(Stop::trouble)?, form)),
        None => import(asked, &setup, store, said, Player::new(Legal, form)),
    }
}

fn import<H: Host>(asked: &Asked, setup: &Setup, store: Option<Box<dyn Store>>, said: Said, player: Player<H>) -> Result<Status, Stop> {
    let games = Games::new(setup.limit * pgn::MB, true);
    Ok(Import::new(setup, store, said, player, games)?.run(&asked.words))
}

/// Where games go.
enum Into<'a> {
    Sqlite(&'a OsStr),
    Postgres(&'a OsStr),
    /// Nowhere: a dry run.
    Nothing,
}

/// Two stores, or none and no dry run, are trouble.
fn into(asked: &Asked) -> Result<Into<'_>, Stop> {
    match (asked.value(&SQLITE), asked.value(&POSTGRES), asked.has(&DRY_RUN)) {
        (Some(path), None, false) => Ok(Into::Sqlite(path)),
        (None, Some(conninfo), false) => Ok(Into::Postgres(conninfo)),
        (None, None, true) => Ok(Into::Nothing),
        _ => Err(Stop::trouble("one of --sqlite, --postgres and --dry-run is needed, and no other; see menkhodur import --help")),
    }
}

impl Into<'_> {
    fn open(&self, options: &Options) -> Result<Option<Box<dyn Store>>, String> {
        match self {
            Into::Sqlite(path) => sqlite::open(path, options).map(Some),
            Into::Postgres(conninfo) => postgres::open(conninfo, options).map(Some),
            Into::Nothing => Ok(None),
        }
    }
}

fn duplicates(asked: &Asked) -> Result<Duplicates, Stop> {
    match asked.value(&DUPLICATES).map(OsStr::as_bytes) {
        None | Some(b"tell") => Ok(Duplicates::Tell),
        Some(b"keep") => Ok(Duplicates::Keep),
        Some(b"skip") => Ok(Duplicates::Skip),
        Some(other) => Err(Stop::trouble([b"--duplicates ", other, b": keep, skip or tell is needed"].concat())),
    }
}

fn batch(asked: &Asked) -> Result<u64, Stop> {
    let Some(value) = asked.value(&BATCH) else { return Ok(BATCH_POSITIONS) };
    let number = value.to_str().and_then(|text| text.parse().ok()).filter(|number| *number > 0);
    number.ok_or_else(|| Stop::trouble([b"--batch ", value.as_bytes(), b": a number of positions from 1 up is needed"].concat()))
}
