//! A host behind a pipe, as `menkhodur import --host COMMAND` asks one: for each line with a full FEN one line with the moves of the
//! position in coordinates, a space between them, or `!` and why there are none. A line goes out before the next one is read.
//!
//!     menkhodur import --dry-run --host target/cargo-moves/release/examples/host games.pgn

use menkhodur::{Error, Lent, lent};
use menkhodur_moves::legal;
use std::io::{self, BufRead, Write};

fn main() -> io::Result<()> {
    let (mut list, mut answer) = (Lent::new(), Vec::new());
    let mut output = io::stdout().lock();
    for line in io::stdin().lock().split(b'\n') {
        let listed = lent::fen_read_full(&line?).and_then(|record| legal(&record, &mut list));
        answer.clear();
        write_answer(listed.map(|()| &list), &mut answer)?;
        output.write_all(&answer)?;
        output.flush()?;
    }
    Ok(())
}

fn write_answer(listed: Result<&Lent, Error>, answer: &mut Vec<u8>) -> io::Result<()> {
    match listed {
        Ok(list) => {
            let mut between = "";
            for one in list.moves() {
                write!(answer, "{between}{one}")?;
                between = " ";
            }
        }
        Err(refused) => write!(answer, "! {refused}")?,
    }
    answer.write_all(b"\n")
}
