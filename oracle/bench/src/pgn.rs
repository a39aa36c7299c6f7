//! PGN move text, checked and walked by us and by the same walk in plain safe Rust: games as one text of 100 MB, the same games one by
//! one, and the games of a file that the variable PGN names.

use crate::plain_pgn;
use crate::{names_of, times};
use both::abi;
use both::games::{board_of, random_move, STARTS};
use both::numbers::{number_of, position_of};
use both::random::Random;
use compare::movetext;
use std::hint::black_box;
use std::time::Instant;

const GAMES: usize = 300;
const PLIES: usize = 90;
const MEGABYTE: usize = 1_000_000;

/// A random game's moves as the standard writes them, with numbers, and now and then a comment, a `$` or a variation.
fn game(random: &mut Random) -> Vec<u8> {
    let (mut board, mut text) = (board_of(STARTS[0]), String::new());
    for ply in 0..PLIES {
        let Some(m) = random_move(&board, random) else { break };
        let position = position_of(&board);
        let at = position.list.iter().position(|n| *n == number_of(m)).expect("the move is listed");
        let names = names_of(&position, abi::san_name_standard);
        if ply % 2 == 0 {
            text += &format!("{}. ", ply / 2 + 1);
        }
        text += &names[at];
        if random.once_in(15) {
            text += &format!(" ${}", 1 + random.below(20));
        }
        if random.once_in(25) {
            text += " {The best that there was, as was shown later.}";
        }
        if random.once_in(30) {
            text += &format!(" ({}... {} {} (and {}))", ply / 2 + 1, random.pick(&names), random.pick(&names), random.pick(&names)).replace("and ", "");
        }
        text.push(if random.once_in(14) { '\n' } else { ' ' });
        board = board.make_move_new(m);
    }
    text.into_bytes()
}

/// So many megabytes of games, one behind the other, as one text and cut into games.
fn joined(games: &[Vec<u8>], megabytes: usize, random: &mut Random) -> (Vec<u8>, Vec<Vec<u8>>) {
    let (mut text, mut cut) = (vec![], vec![]);
    while text.len() < megabytes * MEGABYTE {
        let one = random.pick(games);
        text.extend(one);
        cut.push([&one[..], b"1/2-1/2\n"].concat());
    }
    (text, cut)
}

/// The move text of each game of a file: lines that are no tags, between lines that are.
fn games_of(file: &str) -> Vec<Vec<u8>> {
    let mut all = vec![String::new()];
    for line in file.lines() {
        match line.starts_with('[') {
            true if all.last().is_some_and(|text| !text.trim().is_empty()) => all.push(String::new()),
            true => {}
            false => *all.last_mut().expect("there is one") += &format!("{}\n", line),
        }
    }
    all.into_iter().filter(|text| !text.trim().is_empty()).map(String::into_bytes).collect()
}

fn walked(text: &[u8]) -> u64 {
    let (mut offset, mut level, mut moves) = (0, 0, 0);
    loop {
        let next = abi::pgn_next(text, offset, level);
        if next.found == 0 {
            return moves;
        }
        (offset, level, moves) = (next.start + next.length, next.level, moves + 1);
    }
}

fn plain_walked(text: &[u8]) -> u64 {
    let (mut offset, mut level, mut moves) = (0, 0, 0);
    while let Ok(Some((start, length, deep))) = plain_pgn::next(text, offset, level) {
        (offset, level, moves) = (start + length, deep, moves + 1);
    }
    moves
}

fn rows(what: &str, texts: &[Vec<u8>]) {
    let bytes: usize = texts.iter().map(Vec::len).sum();
    let mut moves = 0;
    for text in texts {
        let (owed, number, _) = movetext::walk(text, 0, 0);
        assert_eq!(number, 0, "{}", String::from_utf8_lossy(&text[..text.len().min(200)]));
        assert_eq!(abi::pgn_check(text).moves, owed.len() as u64);
        assert_eq!(plain_pgn::check(text), Ok(owed.len()));
        assert_eq!((walked(text), plain_walked(text)), (owed.len() as u64, owed.len() as u64));
        moves += owed.len();
    }
    let each = |ns: f64| bytes as f64 * 1e3 / (ns * texts.len() as f64);
    let (theirs, ours) = times(texts, |t| plain_pgn::check(t), |t| abi::pgn_check(t).moves);
    let (their_next, our_next) = times(texts, |t| plain_walked(t), |t| walked(t));
    println!("{}: {} texts, {:.1} MB, {} moves", what, texts.len(), bytes as f64 / 1e6, moves);
    println!("    check: plain Rust {:.0} MB/s, ours {:.0} MB/s, {:.2} times as fast", each(theirs), each(ours), theirs / ours);
    println!("    next over all: plain Rust {:.0} MB/s, ours {:.0} MB/s, {:.2} times as fast", each(their_next), each(our_next), their_next / our_next);
    let per_move = our_next * texts.len() as f64 / moves as f64;
    println!("    next over all takes {:.2} times our check, {:.1} ns a move", our_next / ours, per_move);
}

/// One call at a time from places behind a tenth, the half and nine tenths of a text.
fn from_places(what: &str, text: &[u8]) {
    for tenth in [1, 5, 9] {
        let from = text.len() as u64 * tenth / 10;
        let places: Vec<u64> = (0..10_000).map(|i| from + 7 * i).collect();
        let mut best = f64::MAX;
        for _ in 0..9 {
            let start = Instant::now();
            for place in &places {
                black_box(abi::pgn_next(text, *place, 0));
            }
            best = best.min(start.elapsed().as_nanos() as f64 / places.len() as f64);
        }
        println!("    a call from a place behind {} tenths of {}: {:.1} ns", tenth, what, best);
    }
}

pub fn pgn(random: &mut Random) {
    let games: Vec<Vec<u8>> = (0..GAMES).map(|_| game(random)).collect();
    let (long, cut) = joined(&games, 100, random);
    let (short, _) = joined(&games, 10, random);
    if let Ok(path) = std::env::var("PGN") {
        let file = std::fs::read_to_string(&path).expect("the file that PGN names is read");
        rows(&path, &games_of(&file));
    }
    rows("games, one by one", &cut);
    from_places("10 MB", &short);
    from_places("100 MB", &long);
    rows("games as one text", &[long]);
}
