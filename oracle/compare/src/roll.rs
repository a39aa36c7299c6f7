//! Rolls as document 02 tells them: orders 1 and 11, and order 12 for the counters behind the record's 68 numbers and for the old rolls without them.
//! Written from the paper's words over the crate's own actions and never from our code, so that it can judge our writer and our readers.

use crate::records::counters_in_range;
use both::abi::{Record, ACTIONS_LENGTH, LAST_COUNT, NUMBERS};
pub use both::abi::{MOST_ACTIONS, MOST_MOVES};
use both::numbers::{color_of, colour_of, move_of, number_of, MOST_MOVE};
use chess::Action;

/// Groups of seven bits that a number may have.
const MOST_GROUPS: usize = 5;

const OUT_OF_RANGE: u64 = 5;
const PAST_THE_LIMIT: u64 = 13;
const PART_TOO_SHORT: u64 = 16;
const BAD_ROLL: u64 = 17;

/// The largest that a record number may be: a square's, the side, the two rights, the en passant file.
pub fn largest(place: usize) -> u8 {
    match place {
        0..=63 => 12,
        64 => 1,
        65 | 66 => 3,
        _ => 8,
    }
}

fn in_range(record: &Record) -> bool {
    record.numbers.iter().enumerate().all(|(place, number)| *number <= largest(place)) && counters_in_range(record)
}

/// Which rolls a call reads: those that carry the two counters, or those from before them.
#[derive(Clone, Copy, PartialEq, Eq, Debug)]
pub enum Form {
    New,
    Old,
}

/// Lowest group first, the top bit set on all but the last.
pub fn put_number(mut number: u64, roll: &mut Vec<u8>) {
    while number >= 128 {
        roll.push((number % 128) as u8 + 128);
        number /= 128;
    }
    roll.push(number as u8);
}

/// Kind × 2 + colour, with the kinds 1 to 5 in the order of `Action`; then a move's number.
fn put_action(action: &Action, roll: &mut Vec<u8>) {
    let code = match action {
        Action::MakeMove(_) => 2,
        Action::OfferDraw(color) => 4 + colour_of(*color),
        Action::AcceptDraw => 6,
        Action::DeclareDraw => 8,
        Action::Resign(color) => 10 + colour_of(*color),
    };
    put_number(code as u64, roll);
    if let Action::MakeMove(m) = action {
        put_number(number_of(*m) as u64, roll);
    }
}

/// "A roll writes both after the old 68 numbers."
pub fn write(start: &Record, actions: &[Action]) -> Vec<u8> {
    write_as(Form::New, start, actions)
}

/// An old roll has no place for the counters.
pub fn write_as(form: Form, start: &Record, actions: &[Action]) -> Vec<u8> {
    let mut roll = vec![];
    start.numbers.iter().for_each(|number| put_number(*number as u64, &mut roll));
    if form == Form::New {
        [start.half_moves, start.full_moves].iter().for_each(|counter| put_number(*counter as u64, &mut roll));
    }
    put_number(actions.len() as u64, &mut roll);
    actions.iter().for_each(|action| put_action(action, &mut roll));
    roll
}

/// The old roll with the counters 0 and 1 put in behind its 68th byte; none if it is shorter.
pub fn made_new(old: &[u8]) -> Option<Vec<u8>> {
    let (start, behind) = old.split_at_checked(NUMBERS)?;
    Some([start, &[0, 1], behind].concat())
}

/// The crate's action whose four bytes in the log these are, if they are any's.
pub fn action_of(bytes: &[u8]) -> Option<Action> {
    let number = u16::from_le_bytes([bytes[2], bytes[3]]);
    match (bytes[0], bytes[1], number) {
        (1, 0, 0..=MOST_MOVE) => Some(Action::MakeMove(move_of(number))),
        (2, 0 | 1, 0) => Some(Action::OfferDraw(color_of(bytes[1]))),
        (3, 0, 0) => Some(Action::AcceptDraw),
        (4, 0, 0) => Some(Action::DeclareDraw),
        (5, 0 | 1, 0) => Some(Action::Resign(color_of(bytes[1]))),
        _ => None,
    }
}

/// The roll owed by our writer, or its refusal: 16, 5, 13, 17. It writes no old rolls. 13 goes by the kinds alone, since 17 judges the bytes after it.
pub fn owed_write(start: &Record, part: &[u8], count: u64) -> Result<Vec<u8>, u64> {
    if part.len() < ACTIONS_LENGTH {
        return Err(PART_TOO_SHORT);
    }
    if !in_range(start) {
        return Err(OUT_OF_RANGE);
    }
    if count > MOST_ACTIONS as u64 {
        return Err(PAST_THE_LIMIT);
    }
    let counted = || part.chunks_exact(4).take(count as usize);
    if counted().filter(|action| action[0] == 1).count() > MOST_MOVES {
        return Err(PAST_THE_LIMIT);
    }
    let good: Option<Vec<Action>> = counted().map(action_of).collect();
    good.map(|actions| write(start, &actions)).ok_or(BAD_ROLL)
}

/// What is left of a roll.
struct Left<'a>(&'a [u8]);

impl Left<'_> {
    /// The next number, or 17 if it is cut short, not shortest or over five groups.
    fn number(&mut self) -> Result<u64, u64> {
        let last = self.0.iter().position(|byte| *byte < 128).ok_or(BAD_ROLL)?;
        let (groups, behind) = self.0.split_at(last + 1);
        if groups.len() > MOST_GROUPS || last > 0 && groups[last] == 0 {
            return Err(BAD_ROLL);
        }
        self.0 = behind;
        Ok(groups.iter().rev().fold(0, |sum, group| sum * 128 + (*group % 128) as u64))
    }

    /// The next number, or 5 if it is not from `least` to `most`.
    fn between(&mut self, least: u16, most: u16) -> Result<u16, u64> {
        let number = self.number()?;
        if (u64::from(least)..=u64::from(most)).contains(&number) { Ok(number as u16) } else { Err(OUT_OF_RANGE) }
    }

    /// "Old rolls .. get 0 and 1."
    fn start(&mut self, form: Form) -> Result<Record, u64> {
        let mut record = Record::of([0; NUMBERS]);
        for (place, number) in record.numbers.iter_mut().enumerate() {
            *number = self.between(0, largest(place).into())? as u8;
        }
        if form == Form::New {
            record.half_moves = self.between(0, LAST_COUNT)?;
            record.full_moves = self.between(1, LAST_COUNT)?;
        }
        Ok(record)
    }

    /// The four bytes of an action; a move that may not come any more is refused at its code.
    fn action(&mut self, full: bool) -> Result<[u8; 4], u64> {
        match self.number()? {
            2 if full => Err(PAST_THE_LIMIT),
            2 => match self.number()? {
                number if number <= MOST_MOVE as u64 => Ok([1, 0, number as u8, (number >> 8) as u8]),
                _ => Err(BAD_ROLL),
            },
            code @ (4 | 5 | 6 | 8 | 10 | 11) => Ok([code as u8 / 2, code as u8 % 2, 0, 0]),
            _ => Err(BAD_ROLL),
        }
    }
}

/// What our readers owe: the start and the actions' bytes, or its refusal: 16, then the first from the left of 5, 13 and 17.
pub fn owed_read(form: Form, roll: &[u8], room: usize) -> Result<(Record, Vec<u8>), u64> {
    if room < ACTIONS_LENGTH {
        return Err(PART_TOO_SHORT);
    }
    let mut left = Left(roll);
    let start = left.start(form)?;
    let count = left.number()?;
    if count > MOST_ACTIONS as u64 {
        return Err(PAST_THE_LIMIT);
    }
    let (mut bytes, mut moves) = (vec![], 0);
    for _ in 0..count {
        let action = left.action(moves == MOST_MOVES)?;
        moves += (action[0] == 1) as usize;
        bytes.extend(action);
    }
    if left.0.is_empty() { Ok((start, bytes)) } else { Err(BAD_ROLL) }
}

#[test]
fn numbers_of_the_paper() {
    let text = |number| { let mut roll = vec![]; put_number(number, &mut roll); roll };
    assert_eq!([text(0), text(127), text(128), text(300)], [vec![0], vec![127], vec![128, 1], vec![172, 2]]);
    assert_eq!(text(28_671), [255, 223, 1]);
    assert_eq!(Left(&[172, 2, 9]).number(), Ok(300));
    assert_eq!(Left(&[255, 255, 255, 255, 127]).number(), Ok((1 << 35) - 1));
    for bad in [&[][..], &[128], &[128, 0], &[172, 130, 0], &[128, 128, 128, 128, 128, 1]] {
        assert_eq!(Left(bad).number(), Err(BAD_ROLL));
    }
}

#[test]
fn one_text_that_is_both() {
    let roll = [vec![0; NUMBERS], vec![1, 2, 0]].concat();
    let counted = Record { half_moves: 1, full_moves: 2, ..Record::of([0; NUMBERS]) };
    assert_eq!(owed_read(Form::New, &roll, ACTIONS_LENGTH), Ok((counted, vec![])));
    assert_eq!(owed_read(Form::Old, &roll, ACTIONS_LENGTH), Ok((Record::of([0; NUMBERS]), vec![1, 0, 0, 0])));
    let counters = |bytes: &[u8]| owed_read(Form::New, &[&[0; NUMBERS], bytes, &[0]].concat(), ACTIONS_LENGTH).map(|(start, _)| start.half_moves);
    assert_eq!(counters(&[0, 1]), Ok(0));
    assert_eq!(counters(&[143, 78, 143, 78]), Ok(9_999));
    for bad in [&[0, 0][..], &[144, 78, 1], &[0, 144, 78]] {
        assert_eq!(counters(bad), Err(OUT_OF_RANGE));
    }
    for bad in [&[128, 0, 1][..], &[144, 206, 0, 1], &[0, 129, 0], &[128, 128, 128, 128, 128, 1, 1]] {
        assert_eq!(counters(bad), Err(BAD_ROLL));
    }
}
