//! What documents 01 and 02 say that `replay` prints for the chapters of its script that play game logs. Reads these from standard input:
//!
//!     oracle/remake-log           makes them anew in crates/replay/stdout
//!     oracle/remake-log --check   only compares
//!
//! Written from the documents' words: order 5 for the count of article 9.3, order 9 for the record after a move, order 12 for its counters. Neither our
//! code nor the crate's is used. A log is good if the bytes can be read back into a start and calls that, played again, are all accepted and leave these
//! bytes.

mod after;
mod history;
mod limits;
mod log;
mod position;

use history::Call;
use limits::{LONGEST_READ, RECORD};
use log::Log;
use position::{read_counters, read_fen, Counters, Position};
use std::io::{self, Read, Write};

/// One of the 70 numbers of the next board, the last two its counters, and what it is set to; of a number before them the low byte.
type Poke = Option<(usize, u16)>;

fn number(word: &[u8]) -> Option<u64> {
    let digits = std::str::from_utf8(word).ok()?;
    if !digits.bytes().all(|b| b.is_ascii_digit()) {
        return None;
    }
    digits.parse().ok()
}

fn byte(word: &[u8]) -> Option<u8> {
    u8::try_from(number(word)?).ok()
}

fn list(word: &[u8]) -> Option<Vec<u16>> {
    if word == b"-" {
        return Some(Vec::new());
    }
    let moves: Option<Vec<u16>> = word.split(|b| *b == b',').map(|m| u16::try_from(number(m)?).ok()).collect();
    moves.filter(|moves| moves.len() <= LONGEST_READ)
}

/// The position that a line gives, with its own counters or, if its FEN has none, with the others.
fn position(check: &[u8], moves: &[u8], fen: &[&[u8]], poke: Poke, others: Counters) -> Option<Position> {
    let fen = fen.join(&b' ');
    let (mut record, mut counters) = (read_fen(&fen)?, read_counters(&fen).unwrap_or(others));
    match poke {
        Some((at @ ..RECORD, value)) => record[at] = (value % 256) as u8,
        Some((RECORD, value)) => counters.half = value,
        Some((at, value)) if at == RECORD + 1 => counters.full = value,
        _ => (),
    }
    Some(Position { record, counters, check: byte(check)?, list: list(moves)? })
}

/// Sets a byte of a part. None: there is no such part or byte.
fn set(log: &mut Log, part: &[u8], offset: u64, value: u8) -> Option<()> {
    let part = match part {
        b"a" => &mut log.actions,
        b"p" => &mut log.positions,
        _ => return None,
    };
    *part.get_mut(usize::try_from(offset).ok()?)? = value;
    Some(())
}

/// What a line prints, empty for nothing. None: the line is not understood.
fn play(log: &mut Log, poke: &mut Poke, line: &[u8]) -> Option<String> {
    let words: Vec<&[u8]> = line.split(|b| *b == b' ').collect();
    let said = match words[..] {
        [b"s", check, moves, ref fen @ ..] if !fen.is_empty() => log.start(&position(check, moves, fen, poke.take(), Counters::FIRST)?),
        [b"m", m, check, moves, ref fen @ ..] if !fen.is_empty() => {
            let poke = poke.take();
            let m = number(m)?;
            let next = position(check, moves, fen, poke, log.counters_after(m))?;
            log.call(&Call::Move(m, next))
        }
        [b"o", colour] => log.call(&Call::Offer(byte(colour)?)),
        [b"r", colour] => log.call(&Call::Resign(byte(colour)?)),
        [b"a"] => log.call(&Call::Accept),
        [b"d"] => log.call(&Call::Declare),
        [b"?"] => log.queries(),
        [b"L"] => log.laws(),
        [b"t"] => log.checksums(),
        _ => {
            set_up(log, poke, &words)?;
            String::new()
        }
    };
    Some(said)
}

fn set_up(log: &mut Log, poke: &mut Poke, words: &[&[u8]]) -> Option<()> {
    match *words {
        [b"c", actions, moves] => log.counts = (number(actions)?, number(moves)?),
        [b"l", actions, positions] => log.lent = (number(actions)?, number(positions)?),
        [b"f", value] => log.fill(byte(value)?),
        [b"k", at, value] => *poke = Some((usize::from(byte(at)?), u16::try_from(number(value)?).ok()?)),
        [b"b", part, offset, value] => set(log, part, number(offset)?, byte(value)?)?,
        _ => return None,
    }
    Some(())
}

fn main() -> io::Result<()> {
    let mut script = Vec::new();
    io::stdin().read_to_end(&mut script)?;
    let (mut log, mut poke, mut out) = (Log::new(), None, Vec::new());
    for line in script.split_inclusive(|b| *b == b'\n').filter_map(|line| line.strip_suffix(b"\n")) {
        if line.starts_with(b"#") {
            out.extend_from_slice(line);
            out.push(b'\n');
            continue;
        }
        let said = play(&mut log, &mut poke, line).unwrap_or_else(|| "bad line".into());
        if !said.is_empty() {
            writeln!(out, "{said}")?;
        }
    }
    io::stdout().write_all(&out)
}
