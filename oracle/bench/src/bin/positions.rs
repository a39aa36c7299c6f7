//! Writes so many different positions of random games, a line each, as the crate's `Board` writes them but with the en passant square on
//! the standard's rank: the keys that the archive must give them. The same lines every time.
//!
//!     positions COUNT [en-passant]        with `en-passant` only positions that have an en passant square

use both::games::random_game;
use both::random::Random;
use compare::rules::en_passant_rank;
use std::collections::HashSet;
use std::io::{self, BufWriter, Write};

/// Moves of a game at most.
const LONGEST: usize = 120;

fn main() -> io::Result<()> {
    let usage = || io::Error::other("usage: positions COUNT [en-passant]");
    let arguments: Vec<String> = std::env::args().skip(1).collect();
    let count: usize = arguments.first().and_then(|count| count.parse().ok()).ok_or_else(usage)?;
    let in_passing = match arguments.get(1).map(String::as_str) {
        None => false,
        Some("en-passant") => true,
        Some(_) => return Err(usage()),
    };
    let mut random = Random::new(1, "positions");
    let mut out = BufWriter::new(io::stdout().lock());
    let mut known = HashSet::new();
    while known.len() < count {
        for board in random_game(LONGEST, &mut random) {
            let (key, moved) = en_passant_rank(&board.to_string());
            if known.len() < count && (moved || !in_passing) && known.insert(board) {
                writeln!(out, "{key}")?;
            }
        }
    }
    out.flush()
}
