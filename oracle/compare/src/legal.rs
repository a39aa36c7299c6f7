//! `legal`: the legal moves, whether the side to move is in check, and lists that are judged. `MoveGen`, which stands in for the crate's and is written from
//! the rules of chess, and the checkers that the crate's `Board` keeps decide, on every record that `Board` takes; of records, bytes and lists out of range
//! and of what a judgement tells, the words of docs/papers/HOST-ABI.md.

use crate::after::{crate_board, odd_record};
use crate::after_rule::in_range;
use crate::part::{Part, Tally};
use crate::records;
use both::abi::{self, Answer, Judged, Record, NUMBERS};
use both::games::{board_of, moves_of, Positions, STARTS};
use both::numbers::{number_of, record_of, MOST_MOVE};
use both::random::Random;
use chess::{Board, BoardBuilder, EMPTY};

/// What is done to the list and the byte that are owed before they are lent.
#[derive(Clone, Copy, Debug)]
pub enum Change {
    /// The entry at this place, of a list that has one, is another move, is there again at the end, or is gone.
    Put(usize, u16),
    Again(usize),
    Gone(usize),
    /// One more entry, of any number.
    More(u16),
    /// The byte that is lent.
    Byte(u8),
}

#[derive(Clone)]
pub struct Input {
    record: Record,
    /// How many entries the lent room is longer than the list (shorter if below 0).
    off: i64,
    /// At which entry the lent list begins.
    first: usize,
    changes: Vec<Change>,
}

impl Input {
    /// A position, with the list and the byte that are owed.
    pub fn of(board: &Board) -> Input {
        plain(record_of_board(board), vec![])
    }
}

/// What is owed to a record in range: its list in rising order, and its byte.
struct Owed {
    list: Vec<u16>,
    in_check: u8,
}

fn owed(board: &Board) -> Owed {
    let mut list: Vec<u16> = moves_of(board).into_iter().map(number_of).collect();
    list.sort_unstable();
    Owed { list, in_check: (*board.checkers() != EMPTY) as u8 }
}

fn same<T: PartialEq + std::fmt::Debug>(what: &str, owed: T, ours: T) -> Result<(), String> {
    match ours == owed {
        true => Ok(()),
        false => Err(format!("{}: owed {:?}, ours {:?}", what, owed, ours)),
    }
}

/// The list in a room of so many entries, all of which are compared.
fn compare_list(record: Record, owed: Result<&Owed, u64>, off: i64, tally: &mut Tally) -> Result<(), String> {
    const FREE: u16 = 0xA5A5;
    let list = owed.map_or(&[][..], |owed| &owed.list);
    let length = usize::try_from(list.len() as i64 + off).unwrap_or(0);
    let (mut room, mut want) = (vec![FREE; length], vec![FREE; length]);
    let answer = match owed {
        Err(number) => Answer { number, value: 0 },
        Ok(_) if length < list.len() => Answer { number: 7, value: list.len() as u64 },
        Ok(_) => Answer { number: 0, value: list.len() as u64 },
    };
    if answer.number == 0 {
        want[..list.len()].copy_from_slice(list);
    }
    let ours = abi::legal_list(record, &mut room);
    same("list", (answer, want), (ours, room))?;
    tally.count("legal: list", answer.number == 0);
    Ok(())
}

/// The first thing that is wrong, in the order of the paper.
fn owed_judgement(owed: &Owed, in_check: u8, list: &[u16]) -> Judged {
    let stray = list.iter().find(|m| !owed.list.contains(m));
    let again = list.iter().enumerate().find(|(at, m)| list[at + 1..].contains(m)).map(|(_, m)| m);
    let missing = owed.list.iter().find(|m| !list.contains(m));
    let (wrong, named) = match (stray, again, missing) {
        (Some(m), ..) => (1, *m),
        (_, Some(m), _) => (2, *m),
        (.., Some(m)) => (3, *m),
        _ => (if in_check == owed.in_check { 0 } else { 4 }, 0),
    };
    Judged { number: 0, in_check: owed.in_check as u64, entries: owed.list.len() as u64, wrong, named: named as u64 }
}

/// The list and the byte that are lent.
fn lent(owed: &Owed, first: usize, changes: &[Change]) -> (u8, Vec<u16>) {
    let (mut in_check, mut list) = (owed.in_check, owed.list.clone());
    let turn = if list.is_empty() { 0 } else { first % list.len() };
    list.rotate_left(turn);
    for change in changes {
        let length = list.len();
        match *change {
            Change::Put(at, m) if length > 0 => list[at % length] = m,
            Change::Again(at) if length > 0 => list.push(list[at % length]),
            Change::Gone(at) if length > 0 => drop(list.remove(at % length)),
            Change::More(m) => list.push(m),
            Change::Byte(byte) => in_check = byte,
            _ => {}
        }
    }
    (in_check, list)
}

fn compare_judged(input: &Input, owed: Result<&Owed, u64>, tally: &mut Tally) -> Result<(), String> {
    let none = Owed { list: vec![], in_check: 0 };
    let (in_check, list) = lent(owed.unwrap_or(&none), input.first, &input.changes);
    let refused = |number: u64| Judged { number, in_check: 0, entries: 0, wrong: 0, named: 0 };
    let want = match owed {
        Err(number) => refused(number),
        Ok(_) if in_check > 1 => refused(5),
        Ok(_) if list.len() > 255 || list.iter().any(|m| *m > MOST_MOVE) => refused(6),
        Ok(owed) => owed_judgement(owed, in_check, &list),
    };
    let kept = list.clone();
    same("judged", want, abi::list_judged(input.record, in_check, &list))?;
    same("the lent list", kept, list)?;
    tally.count("legal: judged", (want.number, want.wrong) == (0, 0));
    Ok(())
}

/// Nothing if the record is in range and `Board` does not take it.
fn compare(input: &Input, tally: &mut Tally) -> Result<(), String> {
    let owed = match (in_range(&input.record), crate_board_in_range(&input.record)) {
        (false, _) => Err(5),
        (_, Some(board)) => Ok(owed(&board)),
        _ => return Ok(()),
    };
    let owed = owed.as_ref().map_err(|number| *number);
    let check = owed.map_or_else(|number| Answer { number, value: 0 }, |owed| Answer { number: 0, value: owed.in_check as u64 });
    same("in check", check, abi::in_check(input.record))?;
    tally.count("legal: in check", check.value == 1);
    compare_list(input.record, owed, input.off, tally)?;
    compare_judged(input, owed, tally)
}

fn crate_board_in_range(record: &Record) -> Option<Board> {
    in_range(record).then(|| crate_board(record)).flatten()
}

fn record_of_board(board: &Board) -> Record {
    record_of(&BoardBuilder::from(board))
}

fn plain(record: Record, changes: Vec<Change>) -> Input {
    Input { record, off: 1, first: 0, changes }
}

/// The starts and every position after one and two moves of theirs, lists as they are.
fn positions() -> impl Iterator<Item = Input> {
    let next = |board: Board| moves_of(&board).into_iter().map(move |m| board.make_move_new(m));
    let starts = || STARTS.iter().map(|start| board_of(start));
    let further = starts().take(3).flat_map(next).flat_map(next);
    starts().chain(starts().flat_map(next)).chain(further).map(|board| Input::of(&board))
}

/// In every room, with each entry gone, twice or another move, and with bytes, lists and records out of range.
fn of_the_first() -> impl Iterator<Item = Input> {
    let start = record_of_board(&board_of(STARTS[0]));
    let rooms = (-21..=240).map(move |off| Input { off, ..plain(start, vec![]) });
    let entries = (0..20).flat_map(|at| [Change::Gone(at), Change::Again(at), Change::Put(at, 0), Change::Put(at, MOST_MOVE)]);
    let bytes = (0..=255).map(Change::Byte);
    let past = [MOST_MOVE, MOST_MOVE + 1, u16::MAX].map(Change::More);
    let changed = entries.chain(bytes).chain(past).map(move |change| plain(start, vec![change]));
    let lengths = [254, 255, 256, 300].into_iter().map(move |length| plain(start, vec![Change::More(0); length - 20]));
    let numbers = (0..NUMBERS).flat_map(move |at| [13, 255].map(|number| { let mut r = start; r.numbers[at] = number; r }));
    let counters = [0, 10_000, u16::MAX].into_iter().map(move |full_moves| Record { full_moves, ..start });
    let out = numbers.chain(counters).map(|record| plain(record, vec![Change::More(u16::MAX)]));
    rooms.chain(changed).chain(lengths).chain(out)
}

fn any_change(random: &mut Random) -> Change {
    let (at, any) = (random.below(256), random.below(MOST_MOVE as usize + 1) as u16);
    match random.below(8) {
        0 | 1 => Change::Put(at, any),
        2 => Change::Again(at),
        3 | 4 => Change::Gone(at),
        5 => Change::More(any),
        6 => Change::Byte(random.below(3) as u8),
        _ => Change::More(if random.once_in(8) { u16::MAX - any } else { any % 4_096 }),
    }
}

#[derive(Default)]
pub struct Legal(Positions);

impl Part for Legal {
    type Input = Input;
    const NAME: &'static str = "legal";

    fn fixed(&self) -> Box<dyn Iterator<Item = Input>> {
        Box::new(positions().chain(of_the_first()))
    }

    fn random(&mut self, random: &mut Random) -> Option<Input> {
        let odd = if random.once_in(3) { crate_board_in_range(&odd_record(random)) } else { None };
        let board = odd.unwrap_or_else(|| self.0.next(random));
        let mut record = records::counted(record_of_board(&board), random);
        if random.once_in(60) {
            records::put_counter_out_of_range(&mut record, random);
        }
        let changes = (0..[0, 0, 1, 1, 2, 3][random.below(6)]).map(|_| any_change(random)).collect();
        Some(Input { record, off: *random.pick(&[0, 0, 1, 3, 200, -1, -2, -300]), first: random.below(256), changes })
    }

    fn compare(&self, input: &Input, tally: &mut Tally) -> Result<(), String> {
        compare(input, tally)
    }

    fn smaller(&self, input: &Input) -> Vec<Input> {
        let fewer = (0..input.changes.len()).map(|gone| {
            let mut changes = input.changes.clone();
            changes.remove(gone);
            Input { changes, ..input.clone() }
        });
        let men = records::smaller(&input.record).into_iter().map(|record| Input { record, ..input.clone() });
        fewer.chain(men).collect()
    }

    fn show(&self, input: &Input) -> String {
        format!("{}, {:?}", records::show(&input.record), input.changes)
    }
}
