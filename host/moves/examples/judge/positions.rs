//! The positions that are asked.

use crate::games;
use menkhodur::lent::{self, Record};
use menkhodur::{Board, Lent, MoveText};
use menkhodur_moves::{Legal, in_check, legal};
use std::fs;

/// Numbers that look random and are the same for the same seed.
struct Random(u64);

impl Random {
    fn below(&mut self, bound: usize) -> usize {
        self.0 ^= self.0 << 13;
        self.0 ^= self.0 >> 7;
        self.0 ^= self.0 << 17;
        (self.0 % bound as u64) as usize
    }
}

/// Each kind with its positions.
pub fn all(count: usize, seed: u64, files: &[&str]) -> Result<Vec<(String, Vec<Record>)>, String> {
    let mut random = Random((seed + 1).wrapping_mul(0x9e37_79b9_7f4a_7c15));
    let of_file = |file: &&str| Ok((games::name(file).to_string(), filed(file)?));
    let mut kinds: Vec<(String, Vec<Record>)> = files.iter().map(of_file).collect::<Result<_, String>>()?;
    let mut games = Vec::new();
    while games.len() < count {
        game(&mut random, &mut games);
    }
    games.truncate(count);
    kinds.push(("random games".into(), games));
    for (kind, count, men) in [("men anywhere", count, (0, 24)), ("many men anywhere", count / 2, (32, 64))] {
        let mut odd = std::iter::repeat_with(|| odd(&mut random, men));
        kinds.push((kind.into(), odd.by_ref().filter(may_be_asked).take(count).collect()));
    }
    Ok(kinds)
}

/// The positions of FENs, one per line, or of games.
fn filed(file: &str) -> Result<Vec<Record>, String> {
    let text = fs::read(file).map_err(|error| format!("{file}: {error}"))?;
    if file.ends_with(".pgn") {
        return Ok(games::of(&text).into_iter().flat_map(played).collect());
    }
    let lines = text.split(|byte| *byte == b'\n').filter_map(|line| lent::fen_read(line).ok());
    Ok(lines.filter(may_be_asked).collect())
}

/// The position after each move of a game, as far as it is read.
fn played(moves: &[u8]) -> Vec<Record> {
    let steps = MoveText::new(moves).positions(Board::default(), Legal);
    steps.map_while(Result::ok).map(|step| *step.board.record()).collect()
}

const STARTS: [&str; 8] = [
    "rnbqkbnr/pppppppp/8/8/8/8/PPPPPPPP/RNBQKBNR w KQkq -",
    "r3k2r/p1ppqpb1/bn2pnp1/3PN3/1p2P3/2N2Q1p/PPPBBPPP/R3K2R w KQkq -",
    "8/2p5/3p4/KP5r/1R3p1k/8/4P1P1/8 w - -",
    "r3k2r/Pppp1ppp/1b3nbN/nP6/BBP1P3/q4N2/Pp1P2PP/R2Q1RK1 w kq -",
    "rnbq1k1r/pp1Pbppp/2p5/8/2B5/8/PPP1NnPP/RNBQK2R w KQ -",
    "r4rk1/1pp1qppp/p1np1n2/2b1p1B1/2B1P1b1/P1NP1N2/1PP1QPPP/R4RK1 w - -",
    "4k3/pppppppp/8/PPPPPPPP/pppppppp/8/PPPPPPPP/4K3 w - -",
    "r3k2r/1P4P1/8/8/8/8/1p4p1/R3K2R w KQkq -",
];

/// Adds the positions of a game of random moves.
fn game(random: &mut Random, records: &mut Vec<Record>) {
    let start = if random.below(2) == 0 { 0 } else { random.below(STARTS.len()) };
    let mut list = Lent::new();
    let mut next = lent::fen_read(STARTS[start].as_bytes());
    for _ in 0..120 {
        let Ok(record) = next else { return };
        records.push(record);
        if legal(&record, &mut list).is_err() || list.is_empty() {
            return;
        }
        next = lent::board_after(&record, list.as_slice()[random.below(list.len())].into());
    }
}

/// A king of each side and some men anywhere but pawns at the edges, often with something at home, with rights and a file by chance. So many
/// men are put down, some on the same square.
fn odd(random: &mut Random, (least, most): (usize, usize)) -> Record {
    let mut men = [0; 68];
    for (square, man) in [(0, 4), (7, 4), (56, 10), (63, 10)] {
        men[square] = if random.below(2) == 0 { man } else { 0 };
    }
    for _ in 0..least + random.below(most - least) {
        let (square, man) = (random.below(64), [1, 1, 1, 2, 3, 4, 5, 7, 7, 7, 8, 9, 10, 11][random.below(14)]);
        men[square] = if man % 6 == 1 && !(8..56).contains(&square) { 0 } else { man };
    }
    for (home, man) in [(4, 6), (60, 12)] {
        men[if random.below(3) > 0 { home } else { random.below(64) }] = man;
    }
    let home = |king: u8, rook: u8, square: usize| {
        u8::from(men[square] == king && men[square + 3] == rook) + 2 * u8::from(men[square] == king && men[square - 4] == rook)
    };
    let (white, black) = (home(6, 4, 4), home(12, 10, 60));
    men[64] = random.below(2) as u8;
    men[65] = white & random.below(4) as u8;
    men[66] = black & random.below(4) as u8;
    with_file(random, &mut men);
    Record::from(men)
}

/// Often a pawn of the other side has just stepped twice, where there is room for it.
fn with_file(random: &mut Random, men: &mut [u8; 68]) {
    let file = random.below(8);
    let (pawn, own, [fourth, third, second]) = if men[64] == 0 { (7, 1, [32, 40, 48]) } else { (1, 7, [24, 16, 8]) };
    if random.below(2) == 0 || men[third + file] + men[second + file] != 0 || men[fourth + file] % 6 == 0 && men[fourth + file] != 0 {
        return;
    }
    men[fourth + file] = pawn;
    men[67] = file as u8 + 1;
    for beside in [file.wrapping_sub(1), file + 1].into_iter().filter(|beside| *beside < 8) {
        let square = &mut men[fourth + beside];
        *square = if *square == 0 && random.below(2) == 0 { own } else { *square };
    }
}

/// One king each, the side not to move not in check, no pawns at the edges, rights with king and rook at home, a file with a pawn that can
/// have stepped twice and did not uncover a check by it.
fn may_be_asked(record: &Record) -> bool {
    let men = &record.numbers;
    let count = |man: u8| men[..64].iter().filter(|other| **other == man).count();
    let edges = men[..8].iter().chain(&men[56..64]).all(|man| ![1, 7].contains(man));
    let home = |rights: u8, king: u8, square: usize| {
        let rook = |right: u8, corner: usize| rights & right == 0 || men[corner] == king - 2;
        rights == 0 || men[square] == king && rook(1, square + 3) && rook(2, square - 4)
    };
    let waits = lent::side_to_move(record, 1 - men[64]).is_ok_and(|other| !in_check(&other));
    let few = legal(record, &mut Lent::new()).is_ok();
    count(6) == 1 && count(12) == 1 && edges && home(men[65], 6, 4) && home(men[66], 12, 60) && waits && few && file_may_be_asked(record)
}

fn file_may_be_asked(record: &Record) -> bool {
    let (mut before, white) = (*record, record.numbers[64] == 0);
    let Some(file) = usize::from(record.numbers[67]).checked_sub(1) else { return true };
    let (pawn, [fourth, third, second]) = if white { (7, [32, 40, 48]) } else { (1, [24, 16, 8]) };
    let men = &mut before.numbers;
    let stepped = men[fourth + file] == pawn && men[third + file] + men[second + file] == 0;
    men.swap(fourth + file, second + file);
    stepped && !in_check(&before)
}

pub fn fen(record: &Record) -> String {
    let mut room = [0; lent::MAX_FULL_FEN];
    let length = lent::fen_write_full(record, &mut room).unwrap_or_default();
    room[..length].iter().copied().map(char::from).collect()
}
