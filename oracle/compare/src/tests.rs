//! `tests`: the crate's own tests by name, each run on both sides. The games of `test_can_declare_draw` are taken from
//! the text of game.rs itself.

use crate::lent::check_writer;
use crate::pair::Pair;
use crate::script::Act;
use crate::part::{Part, Tally};
use crate::rules;
use both::abi;
use both::games::{board_of, moves_of, STARTS};
use both::numbers::{number_of, position_of, record_of};
use both::random::Random;
use chess::{Board, BoardBuilder, ChessMove, Square};

const GAME_RS: &str = include_str!("../../chess/src/game.rs");

type Check = Box<dyn Fn(&mut Tally) -> Result<(), String>>;

pub struct Tests(Vec<(String, Check)>);

fn expect(what: &str, holds: bool) -> Result<(), String> {
    if holds { Ok(()) } else { Err(format!("{} does not hold", what)) }
}

/// board_builder.rs, `check_initial_position`.
fn check_initial_position(tally: &mut Tally) -> Result<(), String> {
    for builder in [BoardBuilder::from(Board::default()), BoardBuilder::default()] {
        let record = record_of(&builder);
        expect("the crate's text", builder.to_string() == STARTS[0])?;
        let (owed, _) = rules::en_passant_rank(STARTS[0]);
        check_writer(Ok(&owed), 0, |room| abi::fen_write(record, room))?;
        let ours = abi::fen_read(STARTS[0].as_bytes());
        expect("our record", ours.number == 0 && ours.board == record)?;
        tally.count("tests: FEN", true);
        tally.count("tests: FEN", true);
    }
    Ok(())
}

/// Reads a SAN text on both sides.
fn both_read(board: &Board, text: &str, tally: &mut Tally) -> Result<u16, String> {
    let number = number_of(ChessMove::from_san(board, text).map_err(|e| format!("{}: {}", text, e))?);
    let position = position_of(board);
    let ours = abi::san_read(position.record, &position.list, text.as_bytes());
    expect(text, ours.number == 0 && ours.value == number as u64)?;
    tally.count("tests: SAN", true);
    Ok(number)
}

/// chess_move.rs, `test_basic_moves`.
fn test_basic_moves(tally: &mut Tally) -> Result<(), String> {
    let number = both_read(&Board::default(), "e4", tally)?;
    expect("e4 is e2e4", number == number_of(ChessMove::new(Square::E2, Square::E4, None)))
}

/// The texts given to `fake_pgn_parser` in `test_can_declare_draw`, each with the claim asserted of it.
fn games_of_test() -> Vec<(&'static str, bool)> {
    let body = GAME_RS.split("pub fn test_can_declare_draw()").nth(1).expect("the test");
    let calls = body.split("fake_pgn_parser(").skip(1);
    calls.map(|call| {
        let text = call.split('"').nth(1).expect("a quoted text");
        let assertion = call.split("assert!(").nth(1).expect("an assertion");
        (text, !assertion.starts_with('!'))
    }).collect()
}

/// What `fake_pgn_parser` does, on both sides, and then the claim.
fn play(text: &str, claim: bool, tally: &mut Tally) -> Result<(), String> {
    let mut pair = Pair::new();
    pair.start(STARTS[0], tally)?;
    for san in text.split_whitespace().filter(|s| !s.ends_with('.')) {
        let number = both_read(&pair.board(), san, tally)?;
        expect(san, pair.act(Act::Move(number), tally)?)?;
    }
    pair.end()?;
    expect("the claim of the test", pair.claim() == claim)
}

const B1C3: u16 = 1 + 64 * 18;
const C3B1: u16 = 18 + 64;
const B8C6: u16 = 57 + 64 * 42;
const C6B8: u16 = 42 + 64 * 57;

/// The acts of an example in game.rs, whether the last was accepted, and result and claim after it.
struct Example {
    name: &'static str,
    acts: Vec<Act>,
    accepted: bool,
    result: u64,
    claim: bool,
}

fn examples() -> Vec<Example> {
    let round = [B1C3, B8C6, C3B1, C6B8].map(Act::Move);
    let first = Act::Move(number_of(moves_of(&board_of(STARTS[0]))[0]));
    let one = |name, acts: &[Act], accepted, result, claim| Example { name, acts: acts.to_vec(), accepted, result, claim };
    let twice = [round, round].concat();
    vec![
        one("Game::new", &[], true, 0, false),
        one("Game::result", &[], true, 0, false),
        one("Game::actions", &[first, Act::Resign(1)], true, 4, false),
        one("Game::can_declare_draw, twice", &round, true, 0, false),
        one("Game::can_declare_draw, three times", &twice, true, 0, true),
        one("Game::declare_draw", &[&twice[..], &[Act::Declare]].concat(), true, 7, false),
        one("Game::make_move", &[first], true, 0, false),
        one("Game::offer_draw", &[Act::Offer(0)], true, 0, false),
        one("Game::accept_draw", &[Act::Offer(1), Act::Accept], true, 6, false),
        one("Game::accept_draw, after a move", &[Act::Offer(1), first, Act::Accept], false, 0, false),
        one("Game::resign", &[Act::Resign(0)], true, 2, false),
    ]
}

fn run_example(example: &Example, tally: &mut Tally) -> Result<(), String> {
    let mut pair = Pair::new();
    pair.start(STARTS[0], tally)?;
    let mut accepted = true;
    for act in &example.acts {
        accepted = pair.act(*act, tally)?;
    }
    pair.end()?;
    let got = (accepted, pair.result(), pair.claim());
    expect(&format!("{:?}", got), got == (example.accepted, example.result, example.claim))
}

impl Tests {
    pub fn new() -> Tests {
        let mut all: Vec<(String, Check)> = vec![
            ("board_builder.rs check_initial_position".to_string(), Box::new(check_initial_position)),
            ("chess_move.rs test_basic_moves".to_string(), Box::new(test_basic_moves)),
        ];
        for (i, (text, claim)) in games_of_test().into_iter().enumerate() {
            let name = format!("game.rs test_can_declare_draw, game {}", i + 1);
            all.push((name, Box::new(move |tally| play(text, claim, tally))));
        }
        for example in examples() {
            let name = format!("game.rs example of {}", example.name);
            all.push((name, Box::new(move |tally| run_example(&example, tally))));
        }
        Tests(all)
    }
}

impl Part for Tests {
    type Input = usize;
    const NAME: &'static str = "tests";

    fn fixed(&self) -> Box<dyn Iterator<Item = usize>> {
        Box::new(0..self.0.len())
    }

    fn random(&mut self, _: &mut Random) -> Option<usize> {
        None
    }

    fn compare(&self, index: &usize, tally: &mut Tally) -> Result<(), String> {
        let (name, check) = &self.0[*index];
        check(tally)?;
        println!("test {} passes on both sides", name);
        Ok(())
    }

    fn smaller(&self, _: &usize) -> Vec<usize> {
        vec![]
    }

    fn show(&self, index: &usize) -> String {
        self.0[*index].0.clone()
    }
}

#[test]
fn games_are_found() {
    let games = games_of_test();
    assert_eq!(games.iter().map(|g| g.1).collect::<Vec<_>>(), [false, true, true, false, false, true, false]);
}
