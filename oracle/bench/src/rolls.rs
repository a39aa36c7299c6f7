//! Rolls of games, read and written by us and by the same job in plain safe Rust.

use crate::plain;
use crate::{long_game, row, times};
use both::abi::{self, Record, Roll, ACTIONS_LENGTH, LONGEST_ROLL, POSITION_LENGTH};
use both::games::{board_of, STARTS};
use both::numbers::{number_of, record_of};
use both::random::Random;
use chess::BoardBuilder;

const LENGTHS: [usize; 8] = [20, 40, 80, 160, 300, 600, 1_024, 4_096];
const GAMES: usize = 32;

/// A game in both shapes.
pub struct Rolled {
    start: Record,
    pub actions: Vec<u8>,
    pub count: u64,
    pub roll: Vec<u8>,
}

impl Rolled {
    /// The roll of the same start with as many other actions.
    pub fn again(&self, actions: &[u8]) -> Vec<u8> {
        let mut roll = vec![0; LONGEST_ROLL];
        let answer = abi::roll_write(self.start, actions, self.count, &mut roll);
        assert_eq!(answer.number, 0);
        roll.truncate(answer.value as usize);
        roll
    }
}

/// The actions part of a game of so many moves: an offer after one move in twenty, and a resignation at its end.
pub fn rolled(length: usize, random: &mut Random) -> Rolled {
    let mut actions = vec![];
    for m in long_game(length, random) {
        let [low, high] = number_of(m).to_le_bytes();
        actions.extend([1, 0, low, high]);
        if random.once_in(20) {
            actions.extend([2, random.below(2) as u8, 0, 0]);
        }
    }
    actions.extend([5, random.below(2) as u8, 0, 0]);
    let count = actions.len() as u64 / 4;
    actions.resize(ACTIONS_LENGTH, 0);
    let start = record_of(&BoardBuilder::from(board_of(STARTS[0])));
    let mut game = Rolled { start, actions, count, roll: vec![] };
    game.roll = game.again(&game.actions);
    game
}

/// Plain Rust must refuse as ours does: every cut of a roll, and each byte's top bit changed.
fn check_refusals(roll: &[u8]) {
    let asked = |read: fn(&[u8], &mut [u8]) -> Roll, text: &[u8]| {
        let mut part = vec![0; ACTIONS_LENGTH];
        (read(text, &mut part), part)
    };
    for at in 0..roll.len() {
        let mut changed = roll.to_vec();
        changed[at] ^= 128;
        for text in [&roll[..at], &changed] {
            let owed = asked(abi::roll_read, text);
            assert_eq!(asked(plain::read, text), owed);
            assert_eq!(asked(plain::read_gathering, text), owed);
        }
    }
}

/// What is timed must be right: both write the same roll, and both read the game back.
fn check(game: &Rolled) {
    let mut room = vec![0; LONGEST_ROLL];
    let answer = plain::write(game.start, &game.actions, game.count, &mut room);
    assert_eq!((answer.number, &room[..answer.value as usize]), (0, &game.roll[..]));
    for read in [abi::roll_read, plain::read, plain::read_gathering] {
        let mut part = vec![0; ACTIONS_LENGTH];
        let got = read(&game.roll, &mut part);
        assert_eq!((got.number, got.actions, got.board, &part), (0, game.count, game.start, &game.actions));
    }
}

/// How much of a log's bytes its roll has.
fn share(length: usize, games: &[Rolled]) {
    let rolls: usize = games.iter().map(|g| g.roll.len()).sum();
    let logs: usize = games.iter().map(|g| 4 * g.count as usize + POSITION_LENGTH * (length + 1)).sum();
    let each = |sum: usize| sum as f64 / games.len() as f64;
    let percent = 100.0 * rolls as f64 / logs as f64;
    println!("a roll of {} moves has {:.0} bytes, its log {:.0}: {:.2} percent", length, each(rolls), each(logs), percent);
}

/// Reading, beside plain Rust that looks at the text twice as ours does, and beside plain Rust that allocates.
fn reading(length: usize, games: &[Rolled]) {
    let (mut part, mut other) = ([0; ACTIONS_LENGTH], [0; ACTIONS_LENGTH]);
    let mut ours = |g: &Rolled| abi::roll_read(&g.roll, &mut part);
    let (theirs, taken) = times(games, |g| plain::read(&g.roll, &mut other), &mut ours);
    row(&format!("roll read, {} moves", length), games.len(), theirs, taken, "1");
    let (theirs, taken) = times(games, |g| plain::read_gathering(&g.roll, &mut other), &mut ours);
    row("  the same, plain Rust gathers in a Vec", games.len(), theirs, taken, "");
}

fn writing(length: usize, games: &[Rolled]) {
    let (mut room, mut other) = ([0; LONGEST_ROLL], [0; LONGEST_ROLL]);
    let theirs = |g: &Rolled| plain::write(g.start, &g.actions, g.count, &mut other);
    let (theirs, taken) = times(games, theirs, |g| abi::roll_write(g.start, &g.actions, g.count, &mut room));
    row(&format!("roll write, {} moves", length), games.len(), theirs, taken, "1");
}

pub fn rolls(random: &mut Random) {
    println!("(rolls: the column `crate` has the same job in plain safe Rust, plain.rs)");
    for length in LENGTHS {
        let games: Vec<Rolled> = (0..GAMES).map(|_| rolled(length, random)).collect();
        games.iter().for_each(check);
        check_refusals(&games[0].roll);
        reading(length, &games);
        writing(length, &games);
        if length == 300 {
            share(length, &games);
        }
    }
}
