//! How long a list takes, whole and for one text, over the positions of random games.
//!
//!     cargo run --release --example bench

use menkhodur::lent::{self, Record};
use menkhodur::{Error, Lent};
use menkhodur_moves::{fitting, in_check, legal};
use std::hint::black_box;
use std::time::Instant;

const START: &[u8] = b"rnbqkbnr/pppppppp/8/8/8/8/PPPPPPPP/RNBQKBNR w KQkq - 0 1";
const POSITIONS: usize = 4_000;
const RUNS: usize = 200;

/// A position, and the text of the move that is made in it.
type Made = (Record, Vec<u8>);

fn main() -> Result<(), Error> {
    let (made, moves) = games()?;
    let mut list = Lent::new();
    let mut lists = |what: &str, lend: &dyn Fn(&Made, &mut Lent) -> Result<(), Error>| {
        time(what, &made, &mut |one| lend(one, &mut list).is_ok());
    };
    println!("{POSITIONS} positions of random games, {:.1} moves each; nanoseconds of one call, the least of {RUNS} runs", moves);
    lists("the whole list", &|(record, _), list| legal(record, list));
    lists("the list for one text", &|(record, text), list| fitting(record, text, list));
    time("in check", &made, &mut |(record, _)| in_check(record));
    Ok(())
}

/// Games of up to 80 moves of each side, and how many moves a position has.
fn games() -> Result<(Vec<Made>, f64), Error> {
    let (mut random, mut list, mut made, mut moves) = (88_172_645_463_325_252_u64, Lent::new(), Vec::new(), 0);
    let mut record = lent::fen_read(START)?;
    while made.len() < POSITIONS {
        legal(&record, &mut list)?;
        moves += list.len();
        random ^= random << 13;
        random ^= random >> 7;
        random ^= random << 17;
        let Some(number) = list.as_slice().get(random as usize % list.len().max(1)) else {
            record = lent::fen_read(START)?;
            continue;
        };
        let mut room = [0; 8];
        let length = lent::san_name_standard(&record, list.as_slice(), u64::from(*number), &mut room)?;
        made.push((record, room[..length].to_vec()));
        record = lent::board_after(&record, u64::from(*number))?;
        if record.full_moves > 80 {
            record = lent::fen_read(START)?;
        }
    }
    Ok((made, moves as f64 / POSITIONS as f64))
}

fn time(what: &str, made: &[Made], call: &mut dyn FnMut(&Made) -> bool) {
    let mut run = || {
        let begun = Instant::now();
        made.iter().for_each(|one| {
            black_box(call(black_box(one)));
        });
        begun.elapsed().as_nanos()
    };
    let least = (0..RUNS).map(|_| run()).min().unwrap_or_default();
    println!("{:>8.1} {what}", least as f64 / made.len() as f64);
}
