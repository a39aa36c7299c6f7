//! Games that were played: each of their moves must be in the list, and a check or a mate that a move's text tells must be one.

use crate::lists::Lists;
use menkhodur::{Board, MoveText, Played};
use std::fs;

/// What a file is called in its folder.
pub fn name(file: &str) -> &str {
    file.rsplit('/').next().unwrap_or(file)
}

/// The move texts of a file, in order: what stands between lines of tags.
pub fn of(text: &[u8]) -> Vec<&[u8]> {
    let (mut texts, mut start, mut end) = (Vec::new(), 0, 0);
    for line in text.split_inclusive(|byte| *byte == b'\n') {
        if line.starts_with(b"[") {
            texts.push(&text[start..end]);
            start = end + line.len();
        }
        end += line.len();
    }
    texts.push(&text[start..]);
    texts.retain(|moves| !moves.trim_ascii().is_empty());
    texts
}

#[derive(Default)]
struct Seen {
    games: usize,
    moves: usize,
    checks: usize,
    mates: usize,
    untold: usize,
    different: usize,
}

pub fn judge(lists: Lists, files: &[&str]) -> Result<bool, String> {
    let mut all = true;
    for file in files {
        let text = fs::read(file).map_err(|error| format!("{file}: {error}"))?;
        let mut seen = Seen::default();
        of(&text).into_iter().for_each(|moves| seen.game(lists, moves));
        let Seen { games, moves, checks, mates, untold, different } = seen;
        println!(
            "{}: {games} games, {moves} moves; {checks} told as check or mate, {mates} as mate, {untold} checks not told; {different} different",
            name(file)
        );
        all &= different == 0;
    }
    Ok(all)
}

impl Seen {
    fn game(&mut self, lists: Lists, moves: &[u8]) {
        self.games += 1;
        for step in MoveText::new(moves).positions(Board::default(), lists) {
            match step {
                Ok(step) => self.step(lists, &step),
                Err(refused) => {
                    println!("  game {}: {refused}: {}", self.games, String::from_utf8_lossy(moves));
                    self.different += 1;
                }
            }
        }
    }

    fn step(&mut self, lists: Lists, step: &Played<'_>) {
        let record = step.board.record();
        let (check, mate) = (lists.in_check(record), step.text.ends_with(b"#"));
        let told = mate || step.text.ends_with(b"+");
        let mated = || lists.texts(record).is_ok_and(|moves| moves.is_empty());
        if told && !check || mate && !mated() {
            println!("  game {}: {}: {}", self.games, String::from_utf8_lossy(step.text), step.board.to_fen_full());
            self.different += 1;
        }
        self.moves += 1;
        self.checks += usize::from(told);
        self.mates += usize::from(mate);
        self.untold += usize::from(check && !told);
    }
}
