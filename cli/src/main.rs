//! menkhodur: the proved archive for a shell. `menkhodur --help` tells the commands; `table.rs` is where one is added.

mod completion;
mod diff;
mod drawn;
mod entry;
mod explain;
mod export;
mod figures;
mod found;
mod games;
mod help;
mod import;
mod input;
mod json;
mod judged;
mod keys;
mod layout;
mod lists;
mod man;
mod markup;
mod men;
mod options;
mod output;
mod page;
mod pgn;
mod positions;
mod replayed;
mod report;
mod roll;
mod ruling;
mod sheet;
mod show;
mod spot;
mod standard;
mod stored;
mod streams;
mod svg;
mod table;
mod told;
mod whole;

use options::{Status, Stop, Wanted};
use std::ffi::OsString;
use std::process::ExitCode;

fn main() -> ExitCode {
    let words: Vec<OsString> = std::env::args_os().skip(1).collect();
    let ended = options::read(&words).and_then(|wanted| match wanted {
        Wanted::Run(asked) => (asked.command.run)(&asked),
        Wanted::Say(text) => output::say(&text),
    });
    let status = match ended {
        Ok(status) => status,
        // Whoever reads the answers wants no more of them, as `head` does.
        Err(Stop::Closed(status)) => status,
        Err(Stop::Trouble(message)) => {
            told::tell(&[&message]);
            Status::Trouble
        }
    };
    ExitCode::from(status as u8)
}
