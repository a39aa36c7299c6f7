//! Games and their rolls, made by the words of document 02, orders 1 and 12; the crate's games are out of oracle/logs.

use crate::common::{FULL_MOVES, HALF_MOVES};
use std::fs;
use std::path::PathBuf;

/// A start's 70 numbers, and each action as its code and, for a move, its number.
#[derive(Clone)]
pub struct Game {
    pub start: Vec<u32>,
    pub actions: Vec<(u32, Option<u32>)>,
}

// Where the start has its counters.
pub const HALF: usize = 68;
pub const FULL: usize = 69;

impl Game {
    /// No action on an empty board, at move 1.
    pub fn empty() -> Game {
        let mut start = vec![0; FULL + 1];
        start[FULL] = 1;
        Game { start, actions: vec![] }
    }

    /// Games of the crate, with the counters 0 and 1, out of the logs that cli/run-tests has written.
    pub fn of_the_crate() -> Vec<Game> {
        let plain = |mut game: Game| {
            (game.start[HALF], game.start[FULL]) = (0, 1);
            game
        };
        Game::logs().into_iter().map(|(_, _, game)| plain(game)).collect()
    }

    /// The files of each of those logs, and its game with the start's own counters.
    pub fn logs() -> Vec<(String, String, Game)> {
        let default = concat!(env!("CARGO_MANIFEST_DIR"), "/../target/logs");
        let folder = PathBuf::from(std::env::var("MENKHODUR_LOGS").unwrap_or(default.to_string()));
        let entries = fs::read_dir(folder).expect("cli/run-tests makes the logs");
        let mut paths: Vec<PathBuf> =
            entries.filter_map(|entry| Some(entry.ok()?.path())).filter(|path| path.extension().is_some_and(|e| e == "actions")).collect();
        paths.sort();
        assert!(paths.len() > 100);
        let name = |path: &PathBuf| path.to_str().expect("UTF-8").to_string();
        let of = |path: &PathBuf| {
            let names = (name(path), name(&path.with_extension("positions")));
            let (actions, positions) = (fs::read(&names.0).unwrap(), fs::read(&names.1).unwrap());
            let action = |bytes: &[u8]| {
                let code = u32::from(bytes[0]) * 2 + u32::from(bytes[1]);
                (code, (code == 2).then(|| u32::from(u16::from_le_bytes([bytes[2], bytes[3]]))))
            };
            let mut game = Game { actions: actions.chunks_exact(4).map(action).collect(), ..Game::empty() };
            for (number, byte) in game.start.iter_mut().zip(&positions[..HALF]) {
                *number = u32::from(*byte);
            }
            for (number, at) in [(HALF, HALF_MOVES), (FULL, FULL_MOVES)] {
                game.start[number] = u32::from(u16::from_le_bytes([positions[at], positions[at + 1]]));
            }
            (names.0, names.1, game)
        };
        paths.iter().map(of).collect()
    }
}

fn put(mut number: u32, roll: &mut Vec<u8>) {
    while number > 127 {
        roll.push((number % 128 + 128) as u8);
        number /= 128;
    }
    roll.push(number as u8);
}

/// Some numbers of a start, and the actions.
fn written(start: &[u32], actions: &[(u32, Option<u32>)]) -> Vec<u8> {
    let mut roll = vec![];
    start.iter().for_each(|number| put(*number, &mut roll));
    put(actions.len() as u32, &mut roll);
    for (code, made) in actions {
        put(*code, &mut roll);
        made.iter().for_each(|number| put(*number, &mut roll));
    }
    roll
}

pub fn roll(game: &Game) -> Vec<u8> {
    written(&game.start, &game.actions)
}

/// As it was before version 12: without the counters.
pub fn old_roll(game: &Game) -> Vec<u8> {
    written(&game.start[..HALF], &game.actions)
}
