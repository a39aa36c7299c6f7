//! The other program, asked.

use crate::lists::Lists;
use crate::positions::fen;
use crate::tally::Tally;
use menkhodur::lent::Record;
use std::io::{self, BufRead, BufReader, BufWriter, Write};
use std::process::{Child, ChildStdin, Command, Stdio};
use std::thread;

#[derive(Clone, Copy)]
pub enum Other {
    Stockfish,
    Host,
}

/// What it has said so far.
struct Heard<L> {
    lines: L,
    /// Of the positions that it was asked to show, whether they are in check. Stockfish shows one while it still lists the moves of another,
    /// so that these lines are in order only among themselves.
    checks: Vec<bool>,
}

impl Other {
    pub fn start(self, command: &str) -> io::Result<Child> {
        let mut other = match self {
            Other::Stockfish => Command::new(command),
            Other::Host => Command::new("sh"),
        };
        if let Other::Host = self {
            other.args(["-c", command]);
        }
        other.stdin(Stdio::piped()).stdout(Stdio::piped()).spawn()
    }

    fn ask(self, fen: &str, index: usize, to: &mut impl Write) -> io::Result<()> {
        match self {
            Other::Stockfish if shows(index) => write!(to, "position fen {fen}\nd\ngo perft 1\n"),
            Other::Stockfish => write!(to, "position fen {fen}\ngo perft 1\n"),
            Other::Host => writeln!(to, "{fen}"),
        }
    }
}

impl<L: Iterator<Item = io::Result<String>>> Heard<L> {
    /// The moves of the next position, sorted.
    fn moves(&mut self, other: Other) -> io::Result<Vec<String>> {
        let mut moves = Vec::new();
        for line in self.lines.by_ref() {
            let line = line?;
            let ended = match other {
                Other::Host => true,
                Other::Stockfish => line.starts_with("Nodes searched: "),
            };
            match other {
                Other::Host => moves.extend(line.split_whitespace().map(str::to_string)),
                Other::Stockfish if !ended => moves.extend(line.strip_suffix(": 1").map(str::to_string)),
                Other::Stockfish => {}
            }
            self.checks.extend(line.strip_prefix("Checkers:").map(|men| !men.trim().is_empty()));
            if ended {
                moves.sort();
                return Ok(moves);
            }
        }
        Err(io::Error::other("it has ended"))
    }
}

/// Which positions Stockfish is also asked to show.
fn shows(index: usize) -> bool {
    index % 5 == 0
}

pub fn asked(lists: Lists, other: Other, child: &mut Child, records: &[Record]) -> io::Result<Tally> {
    let (to, from) = (child.stdin.take(), child.stdout.take());
    let (to, from) = (to.ok_or(io::ErrorKind::BrokenPipe)?, from.ok_or(io::ErrorKind::BrokenPipe)?);
    thread::scope(|scope| {
        let asking = scope.spawn(move || ask_all(other, records, to));
        let (mut heard, mut tally) = (Heard { lines: BufReader::new(from).lines(), checks: Vec::new() }, Tally::of(lists));
        for record in records {
            tally.compare(record, &heard.moves(other)?);
        }
        let shown = records.iter().enumerate().filter(|(index, _)| shows(*index)).map(|(_, record)| record);
        shown.zip(&heard.checks).for_each(|(record, check)| tally.compare_check(record, *check));
        asking.join().map_err(|_| io::Error::other("asking has failed"))??;
        Ok(tally)
    })
}

fn ask_all(other: Other, records: &[Record], to: ChildStdin) -> io::Result<()> {
    let mut to = BufWriter::new(to);
    for (index, record) in records.iter().enumerate() {
        other.ask(&fen(record), index, &mut to)?;
    }
    to.flush()
}
