//! Document 02, order 9: the record after a listed move, legal or not, sentence by sentence; and order 12: its counters.

use crate::limits::LAST_COUNT;
use crate::position::{Counters, Record, BLACK_RIGHTS, EN_PASSANT, SIDE, WHITE_RIGHTS};

const PAWN: u8 = 1;
const KING: u8 = 6;

/// Men 1 to 6 are white's, 7 to 12 black's, in one order of kinds.
fn kind(man: u8) -> u8 {
    match man {
        7..=12 => man - 6,
        _ => man,
    }
}

fn is_black(man: u8) -> bool {
    man > 6
}

fn of_colour(kind: u8, black: bool) -> u8 {
    kind + if black { 6 } else { 0 }
}

/// Document 01: 2, 3, 1 at files a, e, h of the colour's own back rank, 0 elsewhere.
fn rights_of_square(back_rank: usize, square: usize) -> u8 {
    match (square / 8 == back_rank, square % 8) {
        (true, 0) => 2,
        (true, 4) => 3,
        (true, 7) => 1,
        _ => 0,
    }
}

pub fn record_after(before: &Record, m: u64) -> Record {
    let (source, dest, promotion) = ((m % 64) as usize, (m / 64 % 64) as usize, (m / 4096) as u8);
    let man = before[source];
    let mut next = *before;
    for square in [source, dest] {
        next[WHITE_RIGHTS] &= !rights_of_square(0, square);
        next[BLACK_RIGHTS] &= !rights_of_square(7, square);
    }
    next[SIDE] = 1 - before[SIDE];
    next[EN_PASSANT] = en_passant(before, man, source, dest);
    next[source] = 0;
    next[dest] = 0;
    if man == 0 {
        return next;
    }
    if kind(man) == KING && source / 8 == dest / 8 && source.abs_diff(dest) == 2 {
        let corner = source / 8 * 8 + if dest > source { 7 } else { 0 };
        next[corner] = 0;
        next[(source + dest) / 2] = before[corner];
    }
    if kind(man) == PAWN && source % 8 != dest % 8 && before[dest] == 0 {
        next[source / 8 * 8 + dest % 8] = 0;
    }
    next[dest] = if promotion == 0 { man } else { of_colour(promotion, is_black(man)) };
    next
}

/// "by the PGN rule and stops at 9,999": the clock starts anew with a pawn on the source or an occupied destination, which is document 01's test of a
/// move that is not reversible; the move number rises when black is to move.
pub fn counters_after(before: &Record, counters: Counters, m: u64) -> Counters {
    let (source, dest) = ((m % 64) as usize, (m / 64 % 64) as usize);
    let restarts = kind(before[source]) == PAWN || before[dest] != 0;
    let one_more = |count: u16| if count == LAST_COUNT { count } else { count + 1 };
    Counters {
        half: if restarts { 0 } else { one_more(counters.half) },
        full: if before[SIDE] == 1 { one_more(counters.full) } else { counters.full },
    }
}

/// A double pawn step that arrives beside an enemy pawn sets its file.
fn en_passant(before: &Record, man: u8, source: usize, dest: usize) -> u8 {
    let enemy = of_colour(PAWN, !is_black(man));
    let stands = |file: usize| before[dest / 8 * 8 + file] == enemy;
    let file = dest % 8;
    let steps_twice = kind(man) == PAWN && source % 8 == file && (source / 8).abs_diff(dest / 8) == 2;
    let beside = file > 0 && stands(file - 1) || file < 7 && stands(file + 1);
    if steps_twice && beside {
        file as u8 + 1
    } else {
        0
    }
}
