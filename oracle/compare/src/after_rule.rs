//! The board after a move, by the sentences of document 02, orders 9 and 12, and by nothing else: the judge of moves that are not legal, of which the
//! crate says nothing. For legal moves the crate is the judge, and this must agree with it.

use crate::records::counters_in_range;
use both::abi::{Record, Stepped, LAST_COUNT};

/// The last move of document 01.
const LAST_MOVE: u64 = 28_671;

#[derive(Clone, Copy, PartialEq)]
struct Place {
    file: i8,
    rank: i8,
}

impl Place {
    fn of(number: u64) -> Place {
        Place { file: (number % 8) as i8, rank: (number / 8 % 8) as i8 }
    }

    fn index(self) -> usize {
        (8 * self.rank + self.file) as usize
    }
}

const PAWN: u8 = 1;
const KING: u8 = 6;

/// The kind of a man, 1 to 6, and his colour; none stands on an empty square.
fn man_of(code: u8) -> Option<(u8, u8)> {
    match code {
        0 => None,
        1..=6 => Some((code, 0)),
        _ => Some((code - 6, 1)),
    }
}

/// What a record may hold: 12 on a square, the sides 0 and 1, rights to 3, files to 8, and counters in their range.
pub fn in_range(record: &Record) -> bool {
    let (men, rest) = record.numbers.split_at(64);
    let numbers = men.iter().all(|man| *man <= 12) && rest.iter().zip([1, 3, 3, 8]).all(|(number, most)| *number <= most);
    numbers && counters_in_range(record)
}

/// "Refusals": 5 for the record, then 6 for the move, and the record is handed back.
pub fn owed(record: &Record, number: u64) -> Stepped {
    let refusal = if !in_range(record) { 5 } else { 6 * (number > LAST_MOVE) as u64 };
    let board = if refusal == 0 { after(record, number) } else { *record };
    Stepped { number: refusal, board }
}

fn after(record: &Record, number: u64) -> Record {
    let (from, to, promotion) = (Place::of(number), Place::of(number / 64), (number / 4_096) as u8);
    let mut next = Record { half_moves: clock(record, from, to), full_moves: move_number(record), ..*record };
    // "an empty source leaves both squares empty"
    next.numbers[from.index()] = 0;
    next.numbers[to.index()] = 0;
    next.numbers[64] = 1 - record.numbers[64];
    for colour in 0..2 {
        next.numbers[65 + colour] &= !(lost(colour, from) | lost(colour, to));
    }
    next.numbers[67] = 0;
    if let Some((kind, colour)) = man_of(record.numbers[from.index()]) {
        match kind {
            KING => castle(record, &mut next, from, to),
            PAWN => step(record, &mut next, colour, from, to),
            _ => (),
        }
        // "who is set down last"
        next.numbers[to.index()] = 6 * colour + if promotion == 0 { kind } else { promotion };
    }
    next
}

/// Order 12, "by the PGN rule and stops at 9,999". Of a move that is not legal, a pawn advance or a capture is what document 01 tells of its count: "a
/// move with a pawn on its source, or onto an occupied square". So a man that goes to its own square restarts the clock, and the man whom castling
/// overwrites on the square passed over does not.
fn clock(record: &Record, from: Place, to: Place) -> u16 {
    let pawn = matches!(man_of(record.numbers[from.index()]), Some((PAWN, _)));
    match pawn || record.numbers[to.index()] != 0 {
        true => 0,
        false => LAST_COUNT.min(record.half_moves + 1),
    }
}

/// "incremented after each move by Black": the record's side, whosever man moves.
fn move_number(record: &Record) -> u16 {
    LAST_COUNT.min(record.full_moves + u16::from(record.numbers[64]))
}

/// "castling is a king going two files along its rank, and what stood in that side's corner of the rank goes to the square passed over"
fn castle(record: &Record, next: &mut Record, from: Place, to: Place) {
    let side = to.file - from.file;
    if to.rank == from.rank && side.abs() == 2 {
        let corner = Place { file: if side > 0 { 7 } else { 0 }, ..from };
        let passed = Place { file: from.file + side / 2, ..from };
        next.numbers[corner.index()] = 0;
        next.numbers[passed.index()] = record.numbers[corner.index()];
    }
}

/// "en passant is a pawn changing files to an empty square, and clears the square on its old rank and new file"; "en passant file set only
/// when a double pawn step (two ranks on one file) arrives beside an enemy pawn".
fn step(record: &Record, next: &mut Record, colour: u8, from: Place, to: Place) {
    if from.file != to.file {
        if record.numbers[to.index()] == 0 {
            next.numbers[Place { rank: from.rank, ..to }.index()] = 0;
        }
    } else if (to.rank - from.rank).abs() == 2 {
        let beside = [to.file - 1, to.file + 1].into_iter().filter(|file| (0..8).contains(file));
        let mut men = beside.map(|file| record.numbers[Place { file, ..to }.index()]);
        if men.any(|man| man_of(man) == Some((PAWN, 1 - colour))) {
            next.numbers[67] = to.file as u8 + 1;
        }
    }
}

/// The rights of a colour that a square stands for: 2, 3, 1 at files a, e, h of its own back rank (document 01).
fn lost(colour: usize, place: Place) -> u8 {
    match (place.rank, place.file) {
        (rank, _) if rank != 7 * colour as i8 => 0,
        (_, 0) => 2,
        (_, 4) => 3,
        (_, 7) => 1,
        _ => 0,
    }
}
