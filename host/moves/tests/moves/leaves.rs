//! Counts of leaves of the six usual positions, as the chess programming wiki tells them, played on by the archive's record after a move.

use crate::common::{USUAL, legal, proved, read};
use menkhodur::lent::{self, Record};
use menkhodur_moves::in_check;

type List = fn(&Record) -> Vec<u16>;

fn leaves(list: List, record: &Record, depth: usize) -> u64 {
    let moves = list(record);
    if depth == 1 {
        return moves.len() as u64;
    }
    moves.iter().map(|number| leaves(list, &lent::board_after(record, (*number).into()).unwrap(), depth - 1)).sum()
}

/// From depth 1 on.
const COUNTS: [&[u64]; 6] = [
    &[20, 400, 8_902, 197_281, 4_865_609, 119_060_324],
    &[48, 2_039, 97_862, 4_085_603, 193_690_690],
    &[14, 191, 2_812, 43_238, 674_624, 11_030_083, 178_633_661],
    &[6, 264, 9_467, 422_333, 15_833_292],
    &[44, 1_486, 62_379, 2_103_487, 89_941_194],
    &[46, 2_079, 89_890, 3_894_594, 164_075_551],
];

fn check(list: List, wanted: impl Fn(u64) -> bool) {
    for (fen, counts) in USUAL.iter().zip(COUNTS) {
        for (depth, count) in (1..).zip(counts).filter(|(_, count)| wanted(**count)) {
            assert_eq!(leaves(list, &read(fen), depth), *count, "{fen} {depth}");
        }
    }
}

#[test]
fn known_counts() {
    check(legal, |count| count < 20_000_000);
}

#[test]
#[ignore = "takes some seconds"]
fn known_counts_of_many() {
    check(legal, |count| count >= 20_000_000);
}

#[test]
fn known_counts_of_the_archive() {
    check(proved, |count| count < 50_000);
}

/// To depth 4 of all, and to 5 of two.
#[test]
#[ignore = "takes a minute"]
fn known_deep_counts_of_the_archive() {
    check(proved, |count| (50_000..5_000_000).contains(&count));
}

/// Of the last moves: captures, those in passing, castlings, promotions; and of the leaves: checks and mates.
fn kinds(record: &Record, depth: usize, told: &mut [u64; 6]) {
    for number in legal(record) {
        let after = lent::board_after(record, number.into()).unwrap();
        if depth > 1 {
            kinds(&after, depth - 1, told);
            continue;
        }
        let (source, dest) = (usize::from(number % 64), usize::from(number / 64 % 64));
        let (man, passing) = (record.numbers[source] % 6, record.numbers[dest] == 0 && source % 8 != dest % 8);
        let check = in_check(&after);
        let seen = [
            record.numbers[dest] != 0 || man == 1 && passing,
            man == 1 && passing,
            man == 0 && source.abs_diff(dest) == 2,
            number >= 4_096,
            check,
            check && legal(&after).is_empty(),
        ];
        told.iter_mut().zip(seen).for_each(|(count, seen)| *count += u64::from(seen));
    }
}

#[test]
fn known_counts_of_kinds() {
    for (place, depth, want) in [
        (0, 4, [1_576, 0, 0, 0, 469, 8]),
        (1, 2, [351, 1, 91, 0, 3, 0]),
        (1, 3, [17_102, 45, 3_162, 0, 993, 1]),
        (2, 4, [3_348, 123, 0, 0, 1_680, 17]),
        (2, 5, [52_051, 1_165, 0, 0, 52_950, 0]),
        (3, 3, [1_021, 4, 0, 120, 38, 22]),
        (3, 4, [131_393, 0, 7_795, 60_032, 15_492, 5]),
    ] {
        let mut told = [0; 6];
        kinds(&read(USUAL[place]), depth, &mut told);
        assert_eq!(told, want, "{} {depth}", USUAL[place]);
    }
}
