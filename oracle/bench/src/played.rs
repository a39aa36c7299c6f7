//! A move text played and a step through a game's text, each by one call and by the older calls that give the same in turn: both are ours. And whole games,
//! beside the crate's `Board` with the keys of its `Display`, to which the move is given, for its reader has not the standard's form.

use crate::{row, times, Place};
use both::abi::{self, GameStep, Record};
use both::games::{board_of, random_move, STARTS};
use both::numbers::{list_of, number_of, record_of};
use both::random::Random;
use chess::{Board, BoardBuilder, ChessMove};
use compare::standard;

const GAMES: usize = 200;
const PLIES: usize = 90;

fn in_turn(record: Record, list: &[u16], text: &[u8], room: &mut [u8]) -> (u64, u64) {
    let read = abi::san_read_standard(record, list, text);
    (read.value, abi::fen_write(abi::board_after(record, read.value).board, room).value)
}

fn by_one(step: GameStep) -> (u64, u64) {
    (step.played, step.key)
}

/// Every move of every position, alone and as the text of a game with its number.
fn moves(places: &[Place]) {
    let all: Vec<(&Place, &[u8], Vec<u8>)> = places
        .iter()
        .flat_map(|p| p.standard_names.iter().map(move |name| (p, name.as_bytes(), format!("12. {} ", name).into_bytes())))
        .collect();
    let (mut one, mut other) = ([0; 85], [0; 85]);
    for (p, name, game) in &all {
        assert_eq!(by_one(abi::play(name, p.record, &p.list, &mut one)), in_turn(p.record, &p.list, name, &mut other));
        assert_eq!((one, by_one(abi::game_step(game, 0, p.record, &p.list, &mut other)).1 > 0), (other, true));
    }
    let calls = |(p, name, _): &(&Place, &[u8], Vec<u8>)| in_turn(p.record, &p.list, name, &mut one);
    let (calls, ours) = times(&all, calls, |(p, name, _)| by_one(abi::play(name, p.record, &p.list, &mut other)));
    row("a move text played, against three calls (ours)", all.len(), calls, ours, "1");
    let calls = |(p, _, game): &(&Place, &[u8], Vec<u8>)| {
        let next = abi::pgn_next(game, 0, 0);
        in_turn(p.record, &p.list, &game[next.start as usize..(next.start + next.length) as usize], &mut one)
    };
    let (calls, ours) = times(&all, calls, |(p, _, game)| by_one(abi::game_step(game, 0, p.record, &p.list, &mut other)));
    row("a step, against four calls (ours)", all.len(), calls, ours, "1");
}

/// A game: its text, and what a host has at hand of each position, its list and the crate's move.
struct Game {
    text: Vec<u8>,
    lists: Vec<Vec<u16>>,
    moves: Vec<ChessMove>,
}

fn game(random: &mut Random) -> Game {
    let (mut board, mut game) = (board_of(STARTS[0]), Game { text: vec![], lists: vec![], moves: vec![] });
    while let Some(m) = random_move(&board, random).filter(|_| game.moves.len() < PLIES) {
        let (record, list) = (record_of(&BoardBuilder::from(&board)), list_of(&board));
        let name = standard::name(&record, &list, number_of(m) as u64).expect("a legal move has a name");
        let ply = game.moves.len();
        let number = if ply % 2 == 0 { format!("{}. ", ply / 2 + 1) } else { String::new() };
        game.text.extend(format!("{}{} ", number, name).bytes());
        (game.moves, game.lists) = ([game.moves, vec![m]].concat(), [game.lists, vec![list]].concat());
        board = board.make_move_new(m);
    }
    game
}

fn stepped(game: &Game, start: Record, room: &mut [u8]) -> u64 {
    let (mut record, mut offset, mut bytes) = (start, 0, 0);
    for list in &game.lists {
        let step = abi::game_step(&game.text, offset, record, list, room);
        (record, offset, bytes) = (step.board, step.start + step.length, bytes + step.key);
    }
    bytes
}

fn by_board(game: &Game, start: Board) -> u64 {
    let (mut board, mut bytes) = (start, 0);
    for m in &game.moves {
        board = board.make_move_new(*m);
        bytes += board.to_string().len() as u64;
    }
    bytes
}

pub fn played(places: &[Place], random: &mut Random) {
    moves(places);
    let games: Vec<Game> = (0..GAMES).map(|_| game(random)).collect();
    let positions: usize = games.iter().map(|game| game.moves.len()).sum();
    let (board, mut room) = (board_of(STARTS[0]), [0; 85]);
    let start = record_of(&BoardBuilder::from(&board));
    for game in &games {
        assert_eq!(stepped(game, start, &mut room), by_board(game, board));
    }
    let (theirs, ours) = times(&games, |game| by_board(game, board), |game| stepped(game, start, &mut room));
    let each = GAMES as f64 / positions as f64;
    row("a game's positions by steps, lists at hand; Board", positions, theirs * each, ours * each, "");
}
