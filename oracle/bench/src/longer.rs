//! Our queries on games of 1,024 moves and of 4,096 (document 02, order 11), in turn in one run: a query looks at the whole log once, so the longer game
//! should take four times as long. Three of them also look through the run of positions, whose length is told: it should be four times as long too.

use crate::laws::knights_game;
use crate::{long_game, times};
use both::abi::Log;
use both::games::STARTS;
use both::numbers::number_of;
use both::random::Random;
use chess::ChessMove;
use compare::clock::Walk;

const SHORTER: usize = 1_024;
const LONGER: usize = 4_096;

const QUERIES: [(&str, fn(&Log) -> u64); 4] = [
    ("result", |log| log.result().value),
    ("may a draw be declared", |log| log.can_declare_draw().value),
    ("by the Laws", |log| log.can_claim_by_laws().value),
    ("ruling", |log| log.ruling().laws_claim),
];

fn log_of(moves: &[ChessMove]) -> Log {
    let (mut log, mut walk) = (Log::new(), Walk::start(STARTS[0]));
    assert_eq!(log.start(&walk.position()).number, 0);
    for m in moves {
        walk.to(walk.board.make_move_new(*m));
        assert_eq!(log.make_move(number_of(*m) as u64, &walk.position()).number, 0);
    }
    log
}

/// The longer log begins with the shorter one's moves.
fn both(what: &str, moves: &[ChessMove]) {
    let (shorter, longer) = (log_of(&moves[..SHORTER]), log_of(moves));
    let (first, second) = (shorter.ruling().count, longer.ruling().count);
    for (name, query) in QUERIES {
        let (few, many) = times(&[()], |_| query(&shorter), |_| query(&longer));
        println!("{:<48} {:>7} {:>10.1} {:>7} {:>10.1} {:>9.2}", format!("{what}, {name}"), first, few, second, many, many / few);
    }
}

pub fn longer(random: &mut Random) {
    println!("(order 11: our queries after 1,024 and after 4,096 moves, nanoseconds per question, and the second over the first; at most 4.40 is asked)");
    println!("{:<48} {:>7} {:>10} {:>7} {:>10} {:>9}", "what", "run", "1,024", "run", "4,096", "ratio");
    both("a random game", &long_game(LONGER, random));
    both("knights anywhere", &knights_game(LONGER, random));
    let round: Vec<ChessMove> = "b1c3 g8f6 c3b1 f6g8".split(' ').map(|t| t.parse().expect("a move")).collect();
    both("knights there and back", &round.repeat(LONGER / 4));
}
