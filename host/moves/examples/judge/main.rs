//! Compares lists of legal moves with those of another program, move for move, or with games. `judge` beside this folder, and that of
//! `host/legal`, run it.
//!
//!     judge [--archive] --stockfish PATH | --host COMMAND   COUNT SEED [FILE..]
//!     judge [--archive] --games FILE.pgn..
//!
//! The lists are those of this package, with `--archive` the proved archive's. Stockfish is asked by `go perft 1`, any other program as
//! `menkhodur import --host` asks it. The positions are those of the files, FENs or games; COUNT of random games; COUNT with men anywhere;
//! and half as many with many men. Of the files' FENs and of those with men anywhere only such are asked that Stockfish may be asked, since it
//! does not judge what it is given. With `--games` each move of each game must be in the list, and a check that its text tells must be one.

mod games;
mod lists;
mod other;
mod positions;
mod tally;

use lists::Lists;
use other::Other;
use std::process::ExitCode;

fn main() -> ExitCode {
    let words: Vec<String> = std::env::args().skip(1).collect();
    let words: Vec<&str> = words.iter().map(String::as_str).collect();
    let judged = match words.as_slice() {
        ["--archive", words @ ..] => judge(Lists::Archive, words),
        words => judge(Lists::Moves, words),
    };
    match judged {
        Ok(true) => ExitCode::SUCCESS,
        Ok(false) => ExitCode::from(1),
        Err(trouble) => {
            eprintln!("judge: {trouble}");
            ExitCode::from(2)
        }
    }
}

const USAGE: &str =
    "usage: judge [--archive] --stockfish PATH | --host COMMAND  COUNT SEED [FILE..], or judge [--archive] --games FILE.pgn..";

fn judge(lists: Lists, words: &[&str]) -> Result<bool, String> {
    match words {
        ["--games", files @ ..] => games::judge(lists, files),
        ["--stockfish", command, rest @ ..] => compare(lists, Other::Stockfish, command, rest),
        ["--host", command, rest @ ..] => compare(lists, Other::Host, command, rest),
        _ => Err(USAGE.into()),
    }
}

/// Compares the lists of each kind of positions, and tells what was seen of each.
fn compare(lists: Lists, other: Other, command: &str, words: &[&str]) -> Result<bool, String> {
    let [count, seed, files @ ..] = words else { return Err(USAGE.into()) };
    let (count, seed) = (count.parse().map_err(|_| USAGE)?, seed.parse().map_err(|_| USAGE)?);
    let name = games::name(command);
    let mut different = 0;
    for (kind, records) in positions::all(count, seed, files)? {
        let mut child = other.start(command).map_err(|error| format!("{command}: {error}"))?;
        let tally = other::asked(lists, other, &mut child, &records);
        let tally = child.wait().and(tally).map_err(|error| format!("{command}: {error}"))?;
        println!("{name}, {kind}: {}", tally.shown(records.len()));
        different += tally.different;
    }
    Ok(different == 0)
}
