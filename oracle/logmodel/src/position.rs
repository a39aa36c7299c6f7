//! A position of the log: record with its counters, in-check byte and list. Records come from FEN texts, as documents 01 and 02 (order 12) read them, or
//! from stored bytes.

use crate::limits::{COUNTERS, LARGEST_MOVE, LAST_COUNT, LONGEST_LIST, POSITION, RECORD};

pub const SIDE: usize = 64;
pub const WHITE_RIGHTS: usize = 65;
pub const BLACK_RIGHTS: usize = 66;
pub const EN_PASSANT: usize = 67;

/// 64 squares, side, white's rights, black's rights, en passant.
pub type Record = [u8; RECORD];

/// The half-move clock, 0 to 9,999, and the move number, 1 to 9,999.
#[derive(Clone, Copy, PartialEq)]
pub struct Counters {
    pub half: u16,
    pub full: u16,
}

impl Counters {
    /// "The crate's FEN reader sets 0 and 1."
    pub const FIRST: Counters = Counters { half: 0, full: 1 };

    fn in_range(self) -> bool {
        self.half <= LAST_COUNT && self.full != 0 && self.full <= LAST_COUNT
    }
}

#[derive(Clone, PartialEq)]
pub struct Position {
    pub record: Record,
    pub counters: Counters,
    pub check: u8,
    pub list: Vec<u16>,
}

impl Position {
    /// Answer 5, then 6, else 0.
    pub fn answer(&self) -> u64 {
        let most = |at: usize| match at {
            SIDE => 1,
            WHITE_RIGHTS | BLACK_RIGHTS => 3,
            EN_PASSANT => 8,
            _ => 12,
        };
        if self.check > 1 || !self.counters.in_range() || self.record.iter().enumerate().any(|(at, n)| *n > most(at)) {
            return 5;
        }
        if self.list.len() > LONGEST_LIST || self.list.iter().any(|m| u64::from(*m) > LARGEST_MOVE) {
            return 6;
        }
        0
    }

    /// The 584 bytes: "each as two bytes, low first, after the 68 old record bytes"; unused entries are 0. Only of a position that is not refused.
    pub fn bytes(&self) -> Vec<u8> {
        let mut bytes = self.record.to_vec();
        bytes.extend([self.counters.half, self.counters.full].iter().flat_map(|counter| counter.to_le_bytes()));
        bytes.push(self.check);
        bytes.push(u8::try_from(self.list.len()).expect("a list of at most 255"));
        bytes.extend(self.list.iter().flat_map(|m| m.to_le_bytes()));
        bytes.resize(POSITION, 0);
        bytes
    }

    /// The position that is written as these 584 bytes, if there is one: unused entries are 0.
    pub fn stored(bytes: &[u8]) -> Option<Position> {
        let two = |b: &[u8]| u16::from_le_bytes([b[0], b[1]]);
        let (numbers, behind) = bytes.split_at(RECORD);
        let (counters, behind) = behind.split_at(COUNTERS);
        let (used, unused) = behind[2..].split_at(2 * usize::from(behind[1]));
        if unused.iter().any(|b| *b != 0) {
            return None;
        }
        let mut record = [0; RECORD];
        record.copy_from_slice(numbers);
        let counters = Counters { half: two(counters), full: two(&counters[2..]) };
        Some(Position { record, counters, check: behind[0], list: used.chunks_exact(2).map(two).collect() })
    }
}

/// The counters that a FEN text says in its fifth and its sixth token, one to four digits each, or none.
pub fn read_counters(text: &[u8]) -> Option<Counters> {
    let mut said = text.split(|b| *b == b' ').skip(4).map(|token| match token.len() {
        1..=4 if token.iter().all(u8::is_ascii_digit) => Some(token.iter().fold(0, |sum, digit| 10 * sum + u16::from(digit - b'0'))),
        _ => None,
    });
    let counters = Counters { half: said.next()??, full: said.next()?? };
    counters.in_range().then_some(counters)
}

/// The record that a FEN text says, or none.
pub fn read_fen(text: &[u8]) -> Option<Record> {
    let tokens: Vec<&[u8]> = text.split(|b| *b == b' ').collect();
    if tokens.len() < 4 {
        return None;
    }
    let mut record = [0; RECORD];
    place(tokens[0], &mut record)?;
    record[SIDE] = match tokens[1] {
        b"w" | b"W" => 0,
        b"b" | b"B" => 1,
        _ => return None,
    };
    let right = |letter: u8, number: u8| if tokens[2].contains(&letter) { number } else { 0 };
    record[WHITE_RIGHTS] = right(b'K', 1) + right(b'Q', 2);
    record[BLACK_RIGHTS] = right(b'k', 1) + right(b'q', 2);
    if let [file @ b'a'..=b'h', b'1'..=b'8', ..] = tokens[3] {
        record[EN_PASSANT] = file - b'a' + 1;
    }
    Some(record)
}

/// From a8 on; files and ranks step around modulo 8.
fn place(text: &[u8], record: &mut Record) -> Option<()> {
    let (mut rank, mut file) = (7, 0);
    for b in text {
        match b {
            b'/' => (rank, file) = ((rank + 7) % 8, 0),
            b'1'..=b'8' => file = (file + usize::from(b - b'0')) % 8,
            _ => {
                let man = b"PNBRQKpnbrqk".iter().position(|letter| letter == b)?;
                record[8 * rank + file] = man as u8 + 1;
                file = (file + 1) % 8;
            }
        }
    }
    Some(())
}
