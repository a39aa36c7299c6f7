//! `keys` over the crate chess 3.2.0: for each FEN text of a file, one per line, the crate's own text of it, or `!` alone: what is wrong with a
//! text and where, the crate does not say. With `--check` only the lines that are not their own text are written.

use chess::BoardBuilder;
use std::fs::File;
use std::io::{self, BufRead, BufReader, BufWriter, Write};
use std::str::FromStr;

fn main() -> io::Result<()> {
    let words: Vec<String> = std::env::args().skip(1).collect();
    let check = words.first().is_some_and(|word| word == "--check");
    let path = words.last().ok_or(io::Error::other("usage: crate_keys [--check] FILE"))?;
    let mut input = BufReader::with_capacity(131_072, File::open(path)?);
    let mut out = BufWriter::with_capacity(65_536, io::stdout().lock());
    let mut line = String::new();
    while input.read_line(&mut line)? > 0 {
        let text = line.trim_end_matches('\n');
        match BoardBuilder::from_str(text) {
            Ok(builder) if check => {
                let key = builder.to_string();
                if key != text {
                    writeln!(out, "{} -> {}", text, key)?;
                }
            }
            Ok(builder) => writeln!(out, "{}", builder)?,
            Err(_) => writeln!(out, "!")?,
        }
        line.clear();
    }
    out.flush()
}
