//! `menkhodur roll`: the roll of a stored log or of a game of a PGN file; and `menkhodur roll upgrade`: an old roll, one without counters, written anew.

use crate::import::one;
use crate::input;
use crate::options::{Asked, Flag, Status, Stop};
use crate::pgn;
use crate::stored::Stored;
use crate::whole;
use menkhodur::lent::MAX_ROLL;
use menkhodur::{Error, Roll};
use std::ffi::OsStr;
use std::io::Read;
use std::os::unix::ffi::OsStrExt;

pub const PGN: Flag =
    Flag { name: "pgn", value: Some("FILE"), about: "take the game from this PGN file, in the place of a log; - is standard input" };
pub const GAME: Flag =
    Flag { name: "game", value: Some("N"), about: "the game with this number in the file of --pgn, from 1; 1 if not told" };
pub const OUTPUT: Flag =
    Flag { name: "output", value: Some("FILE"), about: "write the roll to FILE; - is standard output, as without this option; also -o" };
pub const FORCE: Flag = Flag { name: "force", value: None, about: "replace the file that is written if it exists" };

/// No roll has more bytes than this, and no number in one more than five: what stands behind them changes no answer.
const LOOKED_AT: u64 = MAX_ROLL as u64 + 8;

pub fn run(asked: &Asked) -> Result<Status, Stop> {
    let wrong = |why: &str| Err(Stop::trouble(format!("{why}; see menkhodur roll --help")));
    let bytes = match (asked.value(&PGN), asked.words.as_slice()) {
        (Some(file), []) => one::roll(file, game(asked)?, pgn::limit(asked)?)?,
        (Some(_), _) => return wrong("with --pgn no log is needed"),
        (None, []) => return wrong("missing ACTIONS"),
        (None, _) if asked.has(&GAME) => return wrong("--game is for a file of --pgn"),
        (None, words) => Stored::load(words)?.good()?.to_roll(),
    };
    put(asked, asked.value(&OUTPUT).unwrap_or(OsStr::new("-")), &bytes)
}

fn game(asked: &Asked) -> Result<u64, Stop> {
    let Some(value) = asked.value(&GAME) else { return Ok(1) };
    let number = value.to_str().and_then(|text| text.parse().ok()).filter(|number| *number > 0);
    number.ok_or_else(|| Stop::trouble([b"--game ", value.as_bytes(), b": a number from 1 up is needed"].concat()))
}

pub fn upgrade(asked: &Asked) -> Result<Status, Stop> {
    let (old, new) = (&asked.words[0], &asked.words[1]);
    let bytes = upgraded(&read(old)?).map_err(|error| refused(old, &error))?;
    put(asked, new, &bytes)
}

/// Writes a roll to the file that a word names; `-` is standard output.
fn put(asked: &Asked, word: &OsStr, bytes: &[u8]) -> Result<Status, Stop> {
    whole::put_or_say(word, bytes, asked.has(&FORCE), Status::Well)
}

/// What is said of a file that is no roll.
pub fn refused(word: &OsStr, error: &Error) -> Stop {
    Stop::Trouble([input::shown(word), b": ", error.to_string().as_bytes()].concat())
}

/// The bytes of a roll, of either kind.
pub fn read(word: &OsStr) -> Result<Vec<u8>, Stop> {
    let mut bytes = vec![];
    let read = input::open(word).and_then(|file| file.take(LOOKED_AT).read_to_end(&mut bytes));
    read.map_err(|error| Stop::Trouble(input::failed(word, &error)))?;
    Ok(bytes)
}

/// The roll with the game of an old one.
pub fn upgraded(old: &[u8]) -> Result<Vec<u8>, Error> {
    Roll::from_old_bytes(old)?.to_bytes()
}
