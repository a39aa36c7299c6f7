//! Times the crate chess 3.2.0 and libmenkhodur.a on the same inputs in one run. Each answer is compared on the way, so
//! that nothing is timed that is wrong.
//!
//! SAN texts are read by the crate's code in two ways: over lists at hand (`sanlist`), as ours are, and over its own `Board`,
//! where it makes the list, by the stand-in generator, before it looks at it.

mod differences;
mod keys;
mod laws;
mod legal;
mod longer;
mod page;
mod pgn;
mod plain;
mod plain_differences;
mod plain_pgn;
mod played;
mod report;
mod rolls;

use both::abi::{self, Answer, Log, Placed, Position, Record, Stepped, LONGEST_FULL_FEN};
use both::games::{board_of, different_positions, moves_of, random_move, STARTS};
use both::numbers::{move_of, number_of, position_of, record_of, result_number};
use both::random::Random;
use chess::{Board, BoardBuilder, ChessMove, Game, Piece};
use compare::clock::{Counters, Walk};
use compare::rules::en_passant_rank;
use compare::standard;
use std::convert::TryFrom;
use std::hint::black_box;
use std::str::FromStr;
use std::time::{Duration, Instant};

const POSITIONS: usize = 2_048;
/// The best of at least so many rounds over all inputs counts, and of as many as fit into this time.
const ROUNDS: usize = 15;
const LEAST: Duration = Duration::from_secs(1);
const GAMES: usize = 12;
const GAME_ROUNDS: usize = 8;
const GAME_LENGTH: usize = 300;
/// A long game: as many moves as a log held before order 11.
const LONGEST_GAME: usize = 1_024;

/// A position of a game in every shape that is timed.
struct Place {
    builder: BoardBuilder,
    fen: String,
    record: Record,
    list: Vec<u16>,
    names: Vec<String>,
    /// In the PGN standard's form (document 02, order 6).
    standard_names: Vec<String>,
    /// The record and its FEN with the counters of some place in a game (order 12).
    counted: Record,
    full: String,
    board: Board,
    at_hand: sanlist::board::Board,
}

type Namer = fn(Record, &[u16], u64, &mut [u8]) -> Answer;

fn names_of(position: &Position, namer: Namer) -> Vec<String> {
    let name = |number: &u16| {
        let mut room = [0; 11];
        let answer = namer(position.record, &position.list, *number as u64, &mut room);
        assert_eq!(answer.number, 0, "a legal move has a name");
        String::from_utf8(room[..answer.value as usize].to_vec()).expect("a name is ASCII")
    };
    position.list.iter().map(name).collect()
}

fn place_of(board: &Board, random: &mut Random) -> Place {
    let (position, builder) = (position_of(board), BoardBuilder::from(board));
    let counters = Counters { half: random.below(50) as u16, full: 1 + random.below(150) as u16 };
    let (counted, full) = (counters.on(position.record), counters.behind(&board.to_string()));
    let names = names_of(&position, abi::san_name);
    let standard_names = names_of(&position, abi::san_name_standard);
    let at_hand = sanlist::board::Board::new(position.record.numbers, &position.list);
    let (record, list) = (position.record, position.list);
    Place { builder, fen: board.to_string(), record, list, names, standard_names, counted, full, board: *board, at_hand }
}

/// Nanoseconds of one round over all inputs. What `work` gives is kept from being optimised away.
fn round<I, T>(inputs: &[I], work: &mut impl FnMut(&I) -> T) -> f64 {
    let start = Instant::now();
    for input in inputs {
        black_box(work(black_box(input)));
    }
    start.elapsed().as_nanos() as f64
}

/// Nanoseconds for one input by the crate and by us, the best of the rounds. They take turns, so that changes of the
/// clock rate affect both alike.
fn times<I, T, O>(inputs: &[I], mut theirs: impl FnMut(&I) -> T, mut ours: impl FnMut(&I) -> O) -> (f64, f64) {
    let (start, mut rounds, mut best) = (Instant::now(), 0, (f64::MAX, f64::MAX));
    while rounds < ROUNDS || start.elapsed() < LEAST {
        best = (best.0.min(round(inputs, &mut theirs)), best.1.min(round(inputs, &mut ours)));
        rounds += 1;
    }
    (best.0 / inputs.len() as f64, best.1 / inputs.len() as f64)
}

/// One row; `asked` is how many times the crate's speed is asked for.
fn row(what: &str, inputs: usize, theirs: f64, ours: f64, asked: &str) {
    println!("{:<48} {:>8} {:>12.1} {:>12.1} {:>9.2} {:>6}", what, inputs, theirs, ours, theirs / ours, asked);
}

fn fen(places: &[Place]) {
    for place in places {
        assert_eq!(abi::fen_read(place.fen.as_bytes()).board, record_of(&BoardBuilder::from_str(&place.fen).unwrap()));
    }
    let (theirs, ours) = times(places, |p| BoardBuilder::from_str(&p.fen), |p| abi::fen_read(p.fen.as_bytes()));
    row("FEN read", places.len(), theirs, ours, "3");
    let mut room = [0; 85];
    let (theirs, ours) = times(places, |p| p.builder.to_string(), |p| abi::fen_write(p.record, &mut room));
    row("FEN write", places.len(), theirs, ours, "15");
    full_fen(places);
}

/// The pair that keeps the counters (document 02, order 12) beside the crate's, which drops them, and beside our own of the crate's form.
fn full_fen(places: &[Place]) {
    for place in places {
        let mut room = [0; LONGEST_FULL_FEN];
        let answer = abi::fen_write_full(place.counted, &mut room);
        assert_eq!((answer.number, &room[..answer.value as usize]), (0, en_passant_rank(&place.full).0.as_bytes()));
        assert_eq!(abi::fen_read_full(place.full.as_bytes()).board, place.counted);
    }
    let (theirs, ours) = times(places, |p| BoardBuilder::from_str(&p.full), |p| abi::fen_read_full(p.full.as_bytes()));
    row("FEN read with its counters, the crate without", places.len(), theirs, ours, "");
    let mut room = [0; LONGEST_FULL_FEN];
    let (theirs, ours) = times(places, |p| p.builder.to_string(), |p| abi::fen_write_full(p.counted, &mut room));
    row("FEN write with its counters, the crate without", places.len(), theirs, ours, "");
    let (plain, full) = times(places, |p| abi::fen_read(p.full.as_bytes()), |p| abi::fen_read_full(p.full.as_bytes()));
    row("full read (ours), against the crate's form (ours)", places.len(), plain, full, "");
    let mut other = [0; LONGEST_FULL_FEN];
    let (plain, full) = times(places, |p| abi::fen_write(p.counted, &mut other), |p| abi::fen_write_full(p.counted, &mut room));
    row("full write (ours), against the crate's form", places.len(), plain, full, "");
}

fn coordinates(places: &[Place]) {
    let numbers: Vec<u16> = places.iter().flat_map(|p| p.list.iter().copied()).collect();
    let moves: Vec<ChessMove> = numbers.iter().map(|n| move_of(*n)).collect();
    let texts: Vec<String> = moves.iter().map(|m| m.to_string()).collect();
    for (text, number) in texts.iter().zip(&numbers) {
        assert_eq!(abi::move_read(text.as_bytes()), Placed { number: 0, value: *number as u64, offset: 0 });
    }
    let (theirs, ours) = times(&texts, |t| ChessMove::from_str(t), |t| abi::move_read(t.as_bytes()));
    row("coordinate read", texts.len(), theirs, ours, "2");
    let mut room = [0; 5];
    let pairs: Vec<(ChessMove, u16)> = moves.into_iter().zip(numbers).collect();
    let (theirs, ours) = times(&pairs, |(m, _)| m.to_string(), |(_, n)| abi::move_write(*n as u64, &mut room));
    row("coordinate write", pairs.len(), theirs, ours, "2");
}

/// Every legal move of every position (document 02, order 9). The crate's `Board` also keeps pins, checks and a hash, which a record has not.
fn after(places: &[Place]) {
    let all: Vec<(&Place, ChessMove, u64)> =
        places.iter().flat_map(|p| p.list.iter().map(move |n| (p, move_of(*n), *n as u64))).collect();
    for (p, m, number) in &all {
        let next = p.board.make_move_new(*m);
        let owed = Counters::of(&p.record).after(&p.board, &next).on(record_of(&BoardBuilder::from(next)));
        assert_eq!(abi::board_after(p.record, *number), Stepped { number: 0, board: owed });
    }
    let (theirs, ours) = times(&all, |(p, m, _)| p.board.make_move_new(*m), |(p, _, number)| abi::board_after(p.record, *number));
    row("the board after a move", all.len(), theirs, ours, "2");
    // What a host that keeps records would do with the crate.
    let by_builder = |(p, m, _): &(&Place, ChessMove, u64)| {
        BoardBuilder::from(Board::try_from(&p.builder).expect("a position of a game").make_move_new(*m))
    };
    let (theirs, ours) = times(&all, by_builder, |(p, _, number)| abi::board_after(p.record, *number));
    row("the same, the crate from a builder to a builder", all.len(), theirs, ours, "");
}

/// Every move of every position, by its place in the list.
fn san(places: &[Place]) {
    let all: Vec<(&Place, usize)> = places.iter().flat_map(|p| (0..p.list.len()).map(move |i| (p, i))).collect();
    for (p, i) in &all {
        assert_eq!(sanlist::read(&p.at_hand, &p.names[*i]).ok(), Some(p.list[*i]), "{}", p.names[*i]);
        assert_eq!(ChessMove::from_san(&p.board, &p.names[*i]).map(number_of).ok(), Some(p.list[*i]), "{}", p.names[*i]);
    }
    let read = |(p, i): &(&Place, usize)| abi::san_read(p.record, &p.list, p.names[*i].as_bytes());
    let (theirs, ours) = times(&all, |(p, i)| sanlist::read(&p.at_hand, &p.names[*i]), read);
    let (making, again) = times(&all, |(p, i)| ChessMove::from_san(&p.board, &p.names[*i]), read);
    row("SAN read over legal lists, all at hand", all.len(), theirs, ours, "3");
    row("SAN read over legal lists, the crate makes its", all.len(), making, again, "");
    let checks: Vec<(&Place, String)> = all.iter().map(|(p, i)| (*p, format!("{}+", p.names[*i]))).collect();
    let (theirs, ours) = times(&checks, |(p, t)| sanlist::read(&p.at_hand, t), |(p, t)| abi::san_read(p.record, &p.list, t.as_bytes()));
    row("the same at hand, a check sign behind each", checks.len(), theirs, ours, "");
    let mut room = [0; 11];
    let (reading, naming) = times(&all, read, |(p, i)| abi::san_name(p.record, &p.list, p.list[*i] as u64, &mut room));
    row("naming (ours), against a SAN read (ours)", all.len(), reading, naming, "");
    san_standard(&all);
}

/// The PGN standard's form, which the crate has not, against document 01's: each reads and writes its own names.
fn san_standard(all: &[(&Place, usize)]) {
    for (p, i) in all {
        let owed = standard::name(&p.record, &p.list, p.list[*i] as u64);
        assert_eq!(owed.as_ref(), Ok(&p.standard_names[*i]));
        let read = abi::san_read_standard(p.record, &p.list, p.standard_names[*i].as_bytes());
        assert_eq!(read, Answer { number: 0, value: p.list[*i] as u64 });
    }
    let (first, standard) = times(
        all,
        |(p, i)| abi::san_read(p.record, &p.list, p.names[*i].as_bytes()),
        |(p, i)| abi::san_read_standard(p.record, &p.list, p.standard_names[*i].as_bytes()),
    );
    row("standard's form read (ours), against 01's (ours)", all.len(), first, standard, "");
    let (mut room, mut other) = ([0; 11], [0; 8]);
    let (first, standard) = times(
        all,
        |(p, i)| abi::san_name(p.record, &p.list, p.list[*i] as u64, &mut room),
        |(p, i)| abi::san_name_standard(p.record, &p.list, p.list[*i] as u64, &mut other),
    );
    row("standard's naming (ours), against 01's (ours)", all.len(), first, standard, "");
}

/// A game of so many moves, mostly reversible ones, so that runs are long.
fn long_game(length: usize, random: &mut Random) -> Vec<ChessMove> {
    loop {
        let (mut board, mut moves) = (board_of(STARTS[0]), vec![]);
        while moves.len() < length {
            let quiet = |m: &ChessMove| {
                board.piece_on(m.get_source()) != Some(Piece::Pawn) && board.piece_on(m.get_dest()).is_none()
            };
            let calm: Vec<ChessMove> = moves_of(&board).into_iter().filter(quiet).collect();
            let calm = if calm.is_empty() || random.once_in(5) { None } else { Some(*random.pick(&calm)) };
            match calm.or_else(|| random_move(&board, random)) {
                Some(m) => moves.push(m),
                None => break,
            }
            board = board.make_move_new(moves[moves.len() - 1]);
        }
        if moves.len() == length {
            return moves;
        }
    }
}

/// Plays a game on both sides and asks both questions after each move. Gives the nanoseconds of the questions.
fn ask_all(moves: &[ChessMove], log: &mut Log) -> (f64, f64) {
    let (mut game, mut walk) = (Game::new(), Walk::start(STARTS[0]));
    assert_eq!(log.start(&walk.position()).number, 0);
    let (mut theirs, mut ours) = (0.0, 0.0);
    for m in moves {
        walk.to(walk.board.make_move_new(*m));
        assert!(game.make_move(*m));
        assert_eq!(log.make_move(number_of(*m) as u64, &walk.position()).number, 0);
        let start = Instant::now();
        let owed = black_box((game.result(), game.can_declare_draw()));
        theirs += start.elapsed().as_nanos() as f64;
        let start = Instant::now();
        let got = black_box((log.result(), log.can_declare_draw()));
        ours += start.elapsed().as_nanos() as f64;
        assert_eq!((got.0.value, got.1.value), (result_number(owed.0), owed.1 as u64));
    }
    (theirs, ours)
}

/// Each game is played some times; the best time of each side counts.
fn games(random: &mut Random) {
    let mut log = Log::new();
    let (mut theirs, mut ours) = (0.0, 0.0);
    for _ in 0..GAMES {
        let game = long_game(GAME_LENGTH, random);
        let rounds: Vec<(f64, f64)> = (0..GAME_ROUNDS).map(|_| ask_all(&game, &mut log)).collect();
        theirs += rounds.iter().map(|r| r.0).fold(f64::MAX, f64::min);
        ours += rounds.iter().map(|r| r.1).fold(f64::MAX, f64::min);
    }
    let asked = 2 * GAMES * GAME_LENGTH;
    row("result and claim after each of 300 moves", asked, theirs / asked as f64, ours / asked as f64, "8");
    longest_game(&mut log, random);
    laws::laws(&mut log, random);
}

/// The longest game, asked both questions at its end; the paper's aim for it is a time, 300,000 ns, and no ratio.
fn longest_game(log: &mut Log, random: &mut Random) {
    let (mut game, mut walk) = (Game::new(), Walk::start(STARTS[0]));
    assert_eq!(log.start(&walk.position()).number, 0);
    for m in long_game(LONGEST_GAME, random) {
        walk.to(walk.board.make_move_new(m));
        assert!(game.make_move(m));
        assert_eq!(log.make_move(number_of(m) as u64, &walk.position()).number, 0);
    }
    assert_eq!(log.result().value, result_number(game.result()));
    assert_eq!(log.can_declare_draw().value, game.can_declare_draw() as u64);
    let (theirs, ours) = times(&[()], |_| (game.result(), game.can_declare_draw()), |_| (log.result(), log.can_declare_draw()));
    row("result and claim after 1,024 moves", 2, theirs / 2.0, ours / 2.0, "");
}

/// A row of a program, on a file of the positions' texts.
fn lines(what: &str, places: &[Place], times: fn(&[&str]) -> Result<(usize, f64, f64), String>) {
    let texts: Vec<&str> = places.iter().map(|p| p.fen.as_str()).collect();
    match times(&texts) {
        Ok((lines, theirs, ours)) => row(what, lines, theirs, ours, "3"),
        Err(why) => {
            eprintln!("bench: {}: {}", what, why);
            std::process::exit(1);
        }
    }
}

const PARTS: [&str; 15] =
    ["fen", "page", "report", "coordinates", "san", "after", "log", "longer", "rolls", "differences", "pgn", "played", "legal", "keys", "cli"];

/// The parts that were named, or all.
fn parts() -> Vec<String> {
    let named: Vec<String> = std::env::args().skip(1).collect();
    if let Some(other) = named.iter().find(|n| !PARTS.contains(&n.as_str())) {
        eprintln!("bench: there is no part {}\nusage: bench [PART..], with the parts {}; without one, all", other, PARTS.join(", "));
        std::process::exit(2);
    }
    match named.is_empty() {
        true => PARTS.iter().map(|p| p.to_string()).collect(),
        false => named,
    }
}

fn main() {
    let parts = parts();
    let mut random = Random::new(1, "bench");
    let boards = different_positions(POSITIONS, &mut random);
    // The counters have a stream of their own, so that all other inputs are those of before.
    let mut counters = Random::new(1, "bench: counters");
    let places: Vec<Place> = boards.iter().map(|board| place_of(board, &mut counters)).collect();
    println!("{} different positions of games; nanoseconds per input, best of {} rounds or more", places.len(), ROUNDS);
    println!("{:<48} {:>8} {:>12} {:>12} {:>9} {:>6}", "what", "inputs", "crate", "ours", "ratio", "asked");
    for part in parts {
        match part.as_str() {
            "fen" => fen(&places),
            "page" => page::pages(),
            "report" => report::reports(),
            "coordinates" => coordinates(&places),
            "san" => san(&places),
            "after" => after(&places),
            "log" => games(&mut random),
            "longer" => longer::longer(&mut random),
            "rolls" => rolls::rolls(&mut random),
            "differences" => differences::differences(&mut random),
            "pgn" => pgn::pgn(&mut random),
            "played" => played::played(&places, &mut random),
            "legal" => legal::legal(&places),
            "keys" => lines("keys, a line of a file", &places, keys::times),
            _ => {
                lines("menkhodur keys, a line of a file", &places, keys::menkhodur_times);
                lines("menkhodur keys --check, a line of a store", &places, keys::check_times);
            }
        }
    }
}
