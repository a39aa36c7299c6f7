//! A host behind a pipe, as `menkhodur import --host COMMAND` asks one: for each line with a FEN one line with the moves of the position in
//! coordinates, by the crate's board and the oracle's stand-in for its generator; `!` and why for a FEN that the crate refuses.
//!
//!     menkhodur import --dry-run --host target/cargo-oracle/release/host games.pgn

use both::games::moves_of;
use chess::Board;
use std::io::{self, BufRead, Write};
use std::str::FromStr;

fn main() -> io::Result<()> {
    let mut output = io::stdout().lock();
    for line in io::stdin().lock().lines() {
        let answer = match Board::from_str(&line?) {
            Ok(board) => moves_of(&board).iter().map(ToString::to_string).collect::<Vec<_>>().join(" "),
            Err(refused) => format!("! {refused}"),
        };
        output.write_all((answer + "\n").as_bytes())?;
        output.flush()?;
    }
    Ok(())
}
