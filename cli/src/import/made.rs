//! Batches for the tests of the stores: games of positions that no game has, which a store does not ask.

use super::store::{Batch, Filed, Keys, Refused, Source};

/// The key of a board with a king alone, or with some pawns behind it: as many different ones as are wanted.
pub fn key(number: u64) -> Vec<u8> {
    let pawns: String = (0..40).map(|square| if number >> square & 1 == 1 { 'P' } else { '1' }).collect();
    let ranks: Vec<_> = (0..5).map(|rank| joined(&pawns[rank * 8..rank * 8 + 8])).collect();
    format!("4k3/8/{}/4K3 w - - 0 1", ranks.join("/")).into_bytes()
}

/// A rank with its empty squares counted.
fn joined(rank: &str) -> String {
    let mut told = String::new();
    let mut empty = 0;
    for letter in rank.chars().chain([' ']) {
        empty += u32::from(letter == '1');
        if letter != '1' {
            told.extend(char::from_digit(empty, 10).filter(|_| empty > 0));
            told.push(letter);
            empty = 0;
        }
    }
    told.trim_end().to_string()
}

/// A game of so many positions, the first of which is that of all games; `main` of them are its own.
pub fn game(number: u64, positions: u64, main: usize) -> Filed {
    let mut keys = Keys::default();
    keys.push(&key(0));
    (1..positions).for_each(|at| keys.push(&key(number * 7 + at)));
    let tags = [("Event", "an \"event\"\t\\"), ("ECO", "C57"), ("White", "Ж"), ("Black", &number.to_string())];
    let tags = tags.map(|(name, value)| (name.to_string(), value.to_string())).to_vec();
    let roll = [number.to_le_bytes(), [0, 255, 9, 10, 13, 92, 39, 34]].concat();
    let variations = (number & 1 == 0).then(|| format!("1. e4 (1. d4 d5) 1... e5 {number}"));
    Filed { number, line: 10 * number, tags, moves: main as u64 - 1, roll, variations, keys, main, mark: number % 5 }
}

pub fn refused(number: u64) -> Refused {
    let text = format!("Nf{number}\t\n\\.");
    Refused { number, line: 10 * number, at_line: 10 * number + 2, at_column: 3, answer: 4, kind: "move", text }
}

/// The games of a source from `done + 1` on: five, of which the third is refused.
pub fn batch(done: u64) -> Batch {
    let games = [1, 2, 4, 5].map(|number| game(done + number, 9, 7)).to_vec();
    Batch { games, refused: vec![refused(done + 3)], done: done + 5, digest: u64::MAX - done, ended: false }
}

pub fn source(name: &str) -> Source {
    Source { name: name.to_string(), bytes: Some(1_000), digest: Some(u64::MAX) }
}

#[test]
fn made_keys_are_settled_keys() {
    for number in [0, 1, 5, 255, 256, u64::MAX] {
        let (key, mut room) = (key(number), [0; 85]);
        let length = menkhodur::lent::fen_settled(&key, &mut room).unwrap();
        assert_eq!(String::from_utf8_lossy(&room[..length]), String::from_utf8_lossy(&key));
    }
}
