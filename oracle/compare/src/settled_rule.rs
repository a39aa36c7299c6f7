//! The settled record, by the words alone: "the record's en passant file is cleared unless a pawn of the side to move stands beside the pawn that moved
//! (white to move: rank 5, black: rank 4; file f-1 or f+1)". The judge of records that the crate's `Board` refuses; where it takes one, the crate is
//! the judge, and this must agree with it.

use crate::after_rule::in_range;
use both::abi::{Record, Stepped};

/// 5 for a record that is out of range, which is handed back.
pub fn owed(record: &Record) -> Stepped {
    match in_range(record) {
        true => Stepped { number: 0, board: settled(record) },
        false => Stepped { number: 5, board: *record },
    }
}

pub fn settled(record: &Record) -> Record {
    let (rank, pawn) = if record.numbers[64] == 0 { (5, 1) } else { (4, 7) };
    let file = record.numbers[67];
    let mut beside = (1..=8u8).filter(|other| file > 0 && other.abs_diff(file) == 1);
    let mut settled = *record;
    if !beside.any(|other| record.numbers[8 * (rank - 1) + other as usize - 1] == pawn) {
        settled.numbers[67] = 0;
    }
    settled
}
