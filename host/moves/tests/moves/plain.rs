//! A second generator, written from the articles of the Laws and without a look at speed: each of the 28,672 numbers is asked whether it
//! is a move. It judges records that no game has and that other programs do not take.

use crate::common::{games, odd, read};
use menkhodur::lent::{self, Record};
use menkhodur::{Error, Lent, MAX_MOVE};

const PAWN: u8 = 1;
const ROOK: u8 = 4;
const KING: u8 = 6;

type Board = [u8; 64];

fn kind(man: u8) -> u8 {
    if man > 6 { man - 6 } else { man }
}

/// The man's colour, 0 or 1; none on an empty square.
fn colour(man: u8) -> Option<u8> {
    (man != 0).then_some(u8::from(man > 6))
}

/// How many files and ranks further on, upward from a1.
fn apart(from: usize, to: usize) -> (i32, i32) {
    (to as i32 % 8 - from as i32 % 8, to as i32 / 8 - from as i32 / 8)
}

/// Whether no man stands between two squares of a file, a rank or a diagonal.
fn clear(board: &Board, from: usize, to: usize) -> bool {
    let (files, ranks) = apart(from, to);
    let step = files.signum() + 8 * ranks.signum();
    (1..files.abs().max(ranks.abs())).all(|steps| board[(from as i32 + steps * step) as usize] == 0)
}

/// Articles 3.2 to 3.8: whether the man on a square attacks another.
fn attacks(board: &Board, from: usize, to: usize) -> bool {
    let (files, ranks) = apart(from, to);
    let (wide, high) = (files.abs(), ranks.abs());
    let diagonal = wide == high && clear(board, from, to);
    let straight = (wide == 0 || high == 0) && clear(board, from, to);
    from != to
        && match board[from] {
            0 => false,
            1 => wide == 1 && ranks == 1,
            7 => wide == 1 && ranks == -1,
            2 | 8 => wide * high == 2,
            3 | 9 => diagonal,
            4 | 10 => straight,
            5 | 11 => diagonal || straight,
            _ => wide.max(high) == 1,
        }
}

fn attacked(board: &Board, by: u8, square: usize) -> bool {
    (0..64).any(|from| colour(board[from]) == Some(by) && attacks(board, from, square))
}

/// Article 3.9: a side is in check if a king of its is attacked.
fn in_check(board: &Board, side: u8) -> bool {
    (0..64).any(|square| board[square] == KING + 6 * side && attacked(board, 1 - side, square))
}

/// Articles 3.7.1 to 3.7.4, the last of them as the record's file allows it.
fn pawn_goes(board: &Board, side: u8, file: u8, from: usize, to: usize) -> bool {
    let (files, ranks) = apart(from, to);
    let (ahead, second, fifth) = if side == 0 { (ranks, 1, 4) } else { (-ranks, 6, 3) };
    let enemy = |square: usize| colour(board[square]) == Some(1 - side);
    match (files.abs(), ahead) {
        (0, 1) => board[to] == 0,
        (0, 2) => from / 8 == second && board[to] == 0 && clear(board, from, to),
        (1, 1) if board[to] != 0 => enemy(to),
        (1, 1) => from / 8 == fifth && usize::from(file) == to % 8 + 1 && board[from - from % 8 + to % 8] == PAWN + 6 * (1 - side),
        _ => false,
    }
}

/// Article 3.8.2.
fn castles(board: &Board, side: u8, rights: u8, from: usize, to: usize) -> bool {
    let home = if side == 0 { 4 } else { 60 };
    let (right, corner) = match to.checked_sub(home - 2) {
        Some(0) => (2, home - 4),
        Some(4) => (1, home + 3),
        _ => return false,
    };
    let way = [from, usize::midpoint(from, to), to];
    from == home
        && rights & right != 0
        && board[corner] == ROOK + 6 * side
        && clear(board, from, corner)
        && way.iter().all(|square| !attacked(board, 1 - side, *square))
}

fn is_legal(record: &Record, number: u16) -> bool {
    let (from, to, promotion) = (usize::from(number % 64), usize::from(number / 64 % 64), number / 4_096);
    let [board @ .., side, white, black, file] = record.numbers;
    let man = board[from];
    let promotes = kind(man) == PAWN && to / 8 == if side == 0 { 7 } else { 0 };
    // No man goes to a square of his own colour (3.1), and the king is not captured (1.4.1).
    let open = colour(board[to]) != Some(side) && kind(board[to]) != KING;
    let told = if promotes { (2..=5).contains(&promotion) } else { promotion == 0 };
    if colour(man) != Some(side) || !open || !told {
        return false;
    }
    let rights = if side == 0 { white } else { black };
    let goes = match kind(man) {
        PAWN => pawn_goes(&board, side, file, from, to),
        KING => attacks(&board, from, to) || castles(&board, side, rights, from, to),
        _ => attacks(&board, from, to),
    };
    goes && {
        let after = lent::board_after(record, number.into()).unwrap();
        !in_check(after.numbers.first_chunk().unwrap(), side)
    }
}

fn all_legal(record: &Record) -> Vec<u16> {
    (0..=MAX_MOVE).filter(|number| is_legal(record, *number)).collect()
}

fn check(records: &[Record]) {
    for record in records {
        let (want, mut list) = (all_legal(record), Lent::new());
        match menkhodur_moves::legal(record, &mut list) {
            Ok(()) => assert_eq!(list.as_slice(), want, "{record:?}"),
            Err(refused) => assert!(refused == Error::ListOutOfRange && want.len() > 255, "{record:?}"),
        }
        let board = record.numbers.first_chunk().unwrap();
        assert_eq!(menkhodur_moves::in_check(record), in_check(board, record.numbers[64]), "{record:?}");
    }
}

#[test]
fn positions_of_games() {
    check(&games(2_463_534_242, 1_500));
}

#[test]
fn odd_records() {
    check(&odd(88_172_645_463_325_252, 6_000));
}

#[test]
fn more_than_255_moves_are_told_and_never_cut() {
    for (fen, count) in [
        // The most that a position of a game is known to have.
        ("3Q4/1Q4Q1/4Q3/2Q4R/Q4Q2/3Q4/1Q4Rp/1K1BBNNk w - -", 218),
        ("QQQQQQQQ/Q6Q/Q7/Q7/Q7/Q7/7Q/QQQQQQQ1 w - -", 255),
        ("QQQQQQQQ/Q6Q/Q6Q/Q7/8/7Q/Q7/QQQQQQQQ w - -", 256),
        ("QQQQQQQQ/Q6Q/Q6Q/Q6Q/Q6Q/Q6Q/Q6Q/QQQQQQQQ w - -", 288),
    ] {
        let (record, mut list) = (read(fen), Lent::new());
        assert_eq!(all_legal(&record).len(), count);
        let want = if count > 255 { Err(Error::ListOutOfRange) } else { Ok(()) };
        assert_eq!(menkhodur_moves::legal(&record, &mut list), want);
        check(&[record]);
        // One text means few of them.
        assert_eq!(menkhodur_moves::fitting(&record, b"Qd4", &mut list), Ok(()));
        let fit = |number: &u16| number / 64 == 27 && kind(record.numbers[usize::from(number % 64)]) == 5;
        assert_eq!(list.as_slice(), all_legal(&record).into_iter().filter(fit).collect::<Vec<_>>());
    }
}
