//! The two queries of document 02's order 5 beside `can_declare_draw`, all three ours, on the same logs in the same run. The
//! crate has no counterpart.

use crate::{long_game, times, GAMES, GAME_LENGTH, GAME_ROUNDS, LONGEST_GAME};
use both::abi::Log;
use both::games::{board_of, moves_of, STARTS};
use both::numbers::number_of;
use both::random::Random;
use chess::{Board, ChessMove, Game, Piece};
use compare::clock::Walk;
use compare::ruling::Course;
use std::hint::black_box;
use std::time::Instant;

const QUERIES: [fn(&Log) -> u64; 3] =
    [|log| log.can_declare_draw().value, |log| log.can_claim_by_laws().value, |log| log.ruling().laws_claim];

fn row(what: &str, asked: usize, [claim, laws, ruling]: [f64; 3]) {
    let ratios = [laws / claim, ruling / claim];
    println!("{:<44} {:>6} {:>11.1} {:>11.1} {:>11.1} {:>7.2} {:>7.2}", what, asked, claim, laws, ruling, ratios[0], ratios[1]);
}

/// A game that is played on both sides, so that what is timed can be seen to be right.
struct Played<'a> {
    game: Game,
    walk: Walk,
    course: Course,
    log: &'a mut Log,
}

impl Played<'_> {
    fn start(log: &mut Log) -> Played<'_> {
        let (walk, mut course) = (Walk::start(STARTS[0]), Course::default());
        course.start(walk.board);
        assert_eq!(log.start(&walk.position()).number, 0);
        Played { game: Game::new(), walk, course, log }
    }

    fn make_move(&mut self, m: ChessMove) {
        self.walk.to(self.walk.board.make_move_new(m));
        self.course.add(self.walk.board);
        assert!(self.game.make_move(m));
        assert_eq!(self.log.make_move(number_of(m) as u64, &self.walk.position()).number, 0);
    }

    fn check(&self) {
        let owed = self.course.owed(&self.game);
        assert_eq!(self.log.ruling(), owed);
        assert_eq!(self.log.can_claim_by_laws().value, (owed.laws_claim != 0) as u64);
        assert_eq!(self.log.can_declare_draw().value, (owed.claim != 0) as u64);
    }
}

/// Plays a game and asks all three after each move. Gives the nanoseconds of each. They take turns in being the first.
fn ask_all(moves: &[ChessMove], log: &mut Log) -> [f64; 3] {
    let (mut played, mut taken) = (Played::start(log), [0.0; 3]);
    for (i, m) in moves.iter().enumerate() {
        played.make_move(*m);
        played.check();
        for k in 0..3 {
            let which = (i + k) % 3;
            let start = Instant::now();
            black_box(QUERIES[which](black_box(played.log)));
            taken[which] += start.elapsed().as_nanos() as f64;
        }
    }
    taken
}

/// Each game is played some times; the best time of each query counts.
fn games(log: &mut Log, random: &mut Random) {
    let mut sums = [0.0; 3];
    for _ in 0..GAMES {
        let game = long_game(GAME_LENGTH, random);
        let rounds: Vec<[f64; 3]> = (0..GAME_ROUNDS).map(|_| ask_all(&game, log)).collect();
        for (which, sum) in sums.iter_mut().enumerate() {
            *sum += rounds.iter().map(|r| r[which]).fold(f64::MAX, f64::min);
        }
    }
    let asked = GAMES * GAME_LENGTH;
    row("after each of 300 moves", asked, sums.map(|sum| sum / asked as f64));
}

/// One question to a log of so many moves.
fn at_the_end(what: &str, moves: &[ChessMove], log: &mut Log) {
    let mut played = Played::start(log);
    for m in moves {
        played.make_move(*m);
    }
    played.check();
    let against = |which: usize| times(&[()], |_| QUERIES[0](played.log), |_| QUERIES[which](played.log));
    let (laws, ruling) = (against(1), against(2));
    row(what, 1, [laws.0.min(ruling.0), laws.1, ruling.1]);
}

/// The moves of knights that do not take.
fn of_knights(board: &Board) -> Vec<ChessMove> {
    let quiet = |m: &ChessMove| board.piece_on(m.get_source()) == Some(Piece::Knight) && board.piece_on(m.get_dest()).is_none();
    moves_of(board).into_iter().filter(quiet).collect()
}

/// So many of them, anywhere: the run is as long as the game, and few positions are equal.
pub fn knights_game(length: usize, random: &mut Random) -> Vec<ChessMove> {
    let (mut board, mut moves) = (board_of(STARTS[0]), vec![]);
    while moves.len() < length {
        let goes_on = |m: &ChessMove| !of_knights(&board.make_move_new(*m)).is_empty();
        let all: Vec<ChessMove> = of_knights(&board).into_iter().filter(goes_on).collect();
        moves.push(*random.pick(&all));
        board = board.make_move_new(moves[moves.len() - 1]);
    }
    moves
}

pub fn laws(log: &mut Log, random: &mut Random) {
    println!("(order 5: our three queries, and the time of the last two over the first's; at most 1.30 is asked)");
    println!("{:<44} {:>6} {:>11} {:>11} {:>11} {:>7} {:>7}", "what", "asked", "declare", "by laws", "ruling", "laws", "ruling");
    games(log, random);
    at_the_end("after 1,024 moves", &long_game(LONGEST_GAME, random), log);
    at_the_end("after 1,024 moves of knights anywhere", &knights_game(LONGEST_GAME, random), log);
    let round: Vec<ChessMove> = "b1c3 g8f6 c3b1 f6g8".split(' ').map(|t| t.parse().expect("a move")).collect();
    at_the_end("after 1,024 moves of knights there and back", &round.repeat(LONGEST_GAME / 4), log);
}
