//! `menkhodur show`: a stored log or a roll as text, one action per line.

use crate::entry::{self, Entry};
use crate::lists::{JUDGE, Lists};
use crate::options::{Asked, Flag, Status, Stop};
use crate::output::Output;
use crate::page;
use crate::roll;
use crate::stored::{Fault, Stored};
use crate::told;
use menkhodur::Roll;

pub const OLD: Flag = Flag { name: "old", value: None, about: "ROLL is an old roll, without counters" };
pub const JSON: Flag = Flag { name: "json", value: None, about: "print one JSON object for each action" };

pub fn run(asked: &Asked) -> Result<Status, Stop> {
    page::wanted(asked, &JSON)?;
    match asked.words.as_slice() {
        [_] if asked.has(&JUDGE) => Err(Stop::trouble("--judge is for a log, and a ROLL, which has no lists, was named")),
        [word] => {
            let reader = if asked.has(&OLD) { Roll::from_old_bytes } else { Roll::from_bytes };
            let read = reader(roll::read(word)?).map_err(|refused| roll::refused(word, &refused))?;
            put(asked, &entry::of_roll(&read), None, None)?;
            Ok(Status::Well)
        }
        _ if asked.has(&OLD) => Err(Stop::trouble("--old is for a ROLL, and a log was named")),
        _ => show_log(asked),
    }
}

fn show_log(asked: &Asked) -> Result<Status, Stop> {
    let stored = Stored::load(&asked.words)?;
    let fault = stored.fault();
    let good = fault.as_ref().map_or_else(|| stored.log(stored.action_count), |fault| stored.standing(fault));
    let entries: Vec<Entry> = good.iter().flat_map(entry::of_log).collect();
    let lists = good.as_ref().and_then(|log| Lists::of(asked, log));
    put(asked, &entries, fault.as_ref().map(|fault| (&stored, fault)), lists.as_ref())?;
    match fault {
        None => Ok(lists.map_or(Status::Well, |lists| lists.status())),
        Some(fault) => {
            told::tell(&[&stored.told(&fault)]);
            Ok(Status::Trouble)
        }
    }
}

fn put(asked: &Asked, entries: &[Entry], fault: Option<(&Stored, &Fault)>, lists: Option<&Lists>) -> Result<(), Stop> {
    let status = if fault.is_some() { Status::Trouble } else { lists.map_or(Status::Well, Lists::status) };
    if asked.has(&page::HTML) {
        return page::put(asked, &page::shown::of(entries, fault, lists, &asked.words), status).map(drop);
    }
    let mut output: Output = Output::new()?;
    output.status = status;
    for entry in entries {
        output.put(if asked.has(&JSON) { object(entry, lists) } else { line(entry) }.as_bytes())?;
        output.put(b"\n")?;
    }
    if let Some(lists) = lists.filter(|_| !asked.has(&JSON)) {
        output.put(lists.written(entries).as_bytes())?;
    }
    output.flush()
}

fn object(entry: &Entry, lists: Option<&Lists>) -> String {
    lists.iter().fold(entry.object(), |object, lists| object.raw_or_null("judged", lists.at(entry.moves))).end()
}

/// Action, moves made, side, what was done, and of the position after it the length of its list and its FEN with the counters.
fn line(entry: &Entry) -> String {
    let fen = entry.board.to_fen_full();
    format!("{:4} {:4} {:5} {:13} {:>3} {fen}", entry.action, entry.moves, entry.side(), entry.done(), entry.list())
}
