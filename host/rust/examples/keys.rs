//! Writes for each FEN text on standard input, one per line, its key, or `! N OFFSET` with the answer number and the place in the text.

use menkhodur::Board;
use std::io::{self, BufRead, BufReader, BufWriter, ErrorKind, Read, Write};
use std::process::ExitCode;

pub enum Failure {
    Read(io::Error),
    Write(io::Error),
}

fn main() -> ExitCode {
    let (file, error) = match answer(io::stdin().lock(), io::stdout().lock()) {
        Ok(()) => return ExitCode::SUCCESS,
        // Whoever reads the answers wants no more of them, as `head` does.
        Err(Failure::Write(error)) if error.kind() == ErrorKind::BrokenPipe => return ExitCode::SUCCESS,
        Err(Failure::Write(error)) => ("standard output", error),
        Err(Failure::Read(error)) => ("standard input", error),
    };
    // Should standard error be gone too, the status still tells.
    let _ = writeln!(io::stderr(), "keys: {file}: {error}");
    ExitCode::FAILURE
}

/// Answers every line up to the end or to the first failure; a line that could not be read to its end is not answered.
pub fn answer(input: impl Read, output: impl Write) -> Result<(), Failure> {
    let (mut input, mut output) = (BufReader::new(input), BufWriter::new(output));
    let mut line = Vec::new();
    while input.read_until(b'\n', &mut line).map_err(Failure::Read)? > 0 {
        let text = line.strip_suffix(b"\n").unwrap_or(&line);
        match Board::from_fen(text) {
            Ok(board) => writeln!(output, "{board}"),
            Err(refused) => writeln!(output, "! {} {}", refused.number(), refused.offset().unwrap_or_default()),
        }
        .map_err(Failure::Write)?;
        // Whoever waits for an answer before the next line must get it: the next read may take long. After the last line there is none.
        if !input.buffer().contains(&b'\n') {
            output.flush().map_err(Failure::Write)?;
        }
        line.clear();
    }
    Ok(())
}
