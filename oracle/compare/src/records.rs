//! Random board records in range, and smaller ones.

use both::abi::{Record, LAST_COUNT, NUMBERS};
use both::random::Random;

pub const EMPTY: Record = Record::of([0; NUMBERS]);
/// What a refused reader hands out: zeros in all 70 numbers. A move number of 0 is out of range, so no call takes it.
pub const ZEROS: Record = Record { full_moves: 0, ..EMPTY };

/// Order 12: the clock is 0 to 9,999, the move number 1 to 9,999.
pub fn counters_in_range(record: &Record) -> bool {
    record.half_moves <= LAST_COUNT && (1..=LAST_COUNT).contains(&record.full_moves)
}

/// A record with men at the places given.
pub fn with(men: &[(usize, u8)]) -> Record {
    let mut record = EMPTY;
    for (square, code) in men {
        record.numbers[*square] = *code;
    }
    record
}

/// Either counter: at the edge of a digit, of a byte or of a roll's group of seven bits, near the last one, or any.
pub fn random_counter(least: u16, random: &mut Random) -> u16 {
    const EDGES: [u16; 14] = [0, 1, 9, 10, 99, 100, 127, 128, 255, 256, 999, 1_000, LAST_COUNT - 1, LAST_COUNT];
    let any = match random.below(4) {
        0 => random.below(LAST_COUNT as usize + 1) as u16,
        1 => LAST_COUNT - random.below(100) as u16,
        _ => *random.pick(&EDGES),
    };
    any.max(least)
}

/// Either counter out of range, in one way or another.
pub fn put_counter_out_of_range(record: &mut Record, random: &mut Random) {
    let over = *random.pick(&[LAST_COUNT + 1, LAST_COUNT + 2, 16_383, 16_384, 32_768, u16::MAX]);
    match random.below(3) {
        0 => record.half_moves = over,
        1 => record.full_moves = over,
        _ => record.full_moves = 0,
    }
}

/// The record with any counters in range, every other time with those of a game's beginning. They come from a stream beside the given one, so that
/// what is made of this next is what it was before there were counters.
pub fn counted(record: Record, random: &Random) -> Record {
    let mut aside = Random::new(random.clone().next(), "counters");
    if aside.once_in(2) {
        return record;
    }
    Record { half_moves: random_counter(0, &mut aside), full_moves: random_counter(1, &mut aside), ..record }
}

/// Any record in range, from empty to full.
pub fn random(random: &mut Random) -> Record {
    let mut r = EMPTY.numbers;
    let density = random.below(9);
    for square in r[..64].iter_mut() {
        if random.below(8) < density {
            *square = random.below(13) as u8;
        }
    }
    r[64] = random.below(2) as u8;
    r[65] = random.below(4) as u8;
    r[66] = random.below(4) as u8;
    r[67] = random.below(9) as u8;
    counted(Record::of(r), random)
}

/// The record with one number put to 0, or a counter to its first or to a smaller one.
pub fn smaller(record: &Record) -> Vec<Record> {
    let nonzero = (0..NUMBERS).filter(|i| record.numbers[*i] != 0);
    let numbers = nonzero.map(|i| { let mut r = *record; r.numbers[i] = 0; r });
    let below = |n: u16| [0, 1, n / 2, n.wrapping_sub(1)].into_iter().filter(move |m| *m < n);
    let clocks = below(record.half_moves).map(|half_moves| Record { half_moves, ..*record });
    // 0 is out of range and is no smaller input than 1.
    let moves = below(record.full_moves).filter(|n| *n > 0).map(|full_moves| Record { full_moves, ..*record });
    numbers.chain(clocks).chain(moves).collect()
}

/// The numbers that are not 0, as `place:number`, and the counters that are not those of a game's beginning.
pub fn show(record: &Record) -> String {
    let named = |i: usize| match i {
        64 => "side".to_string(),
        65 => "white rights".to_string(),
        66 => "black rights".to_string(),
        67 => "en passant".to_string(),
        _ => format!("{}{}", (b'a' + (i % 8) as u8) as char, i / 8 + 1),
    };
    let (clock, moves) = ((record.half_moves != 0).then_some("half"), (record.full_moves != 1).then_some("full"));
    let counters = [(clock, record.half_moves), (moves, record.full_moves)];
    let numbers = (0..NUMBERS).filter(|i| record.numbers[*i] != 0).map(|i| format!("{} {}", named(i), record.numbers[i]));
    let counters = counters.into_iter().filter_map(|(name, n)| Some(format!("{} {}", name?, n)));
    format!("record [{}]", numbers.chain(counters).collect::<Vec<_>>().join(", "))
}
