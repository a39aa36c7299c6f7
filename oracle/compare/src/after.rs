//! `after`: the board after a move (document 02, orders 9 and 12). Of legal moves the crate's `Board::make_move_new` (board.rs) decides, with every
//! number of the record, the counters as `clock.rs` counts them from its boards; of any other, and of records and moves out of range,
//! `after_rule.rs`, written from the orders' sentences.

use crate::after_rule;
use crate::clock::Counters;
use crate::part::{Part, Tally};
use crate::records;
use crate::rules::TAKEN_BESIDES;
use both::abi::{self, Record, Stepped, LAST_COUNT, NUMBERS};
use both::games::{board_of, moves_of, Positions, STARTS};
use both::numbers::{builder_of, move_of, number_of, record_of};
use both::random::Random;
use chess::{Board, BoardBuilder, Piece};
use std::convert::TryFrom;

#[derive(Clone)]
pub enum Input {
    /// A position of the crate with its counters, and the number of a move that is legal there.
    Legal(Board, Counters, u16),
    /// Any numbers.
    Any(Record, u64),
}

/// The known exception, which no play reaches: a pawn takes a man who stands on the square passed over, and the crate takes the pawn of the en
/// passant file besides.
pub const TAKES_BOTH: &str = "4k3/8/4n3/3Pp3/8/8/8/4K3 w - e6 0 1";

fn record_of_board(board: &Board) -> Record {
    record_of(&BoardBuilder::from(board))
}

/// The crate's record after a legal move, and whether the rule for two men taken at once has given the second one back.
pub(crate) fn owed_legal(board: &Board, counters: Counters, number: u16) -> (Record, bool) {
    let m = move_of(number);
    let next = board.make_move_new(m);
    let mut owed = counters.after(board, &next).on(record_of_board(&next));
    let (from, to) = (m.get_source(), m.get_dest());
    let changes_files = board.piece_on(from) == Some(Piece::Pawn) && from.get_file() != to.get_file();
    match board.en_passant() {
        Some(passed) if changes_files && board.piece_on(to).is_some() && to.ubackward(board.side_to_move()) == passed => {
            owed.numbers[passed.to_index()] = record_of_board(board).numbers[passed.to_index()];
            (owed, true)
        }
        _ => (owed, false),
    }
}

/// What kind of legal move it is, for the count.
fn label(board: &Board, number: u16) -> &'static str {
    let m = move_of(number);
    let (from, to) = (m.get_source(), m.get_dest());
    let files = from.get_file().to_index().abs_diff(to.get_file().to_index());
    let ranks = from.get_rank().to_index().abs_diff(to.get_rank().to_index());
    match board.piece_on(from) {
        Some(Piece::King) if files == 2 => "after: castling",
        Some(Piece::Pawn) if m.get_promotion().is_some() => "after: promotion",
        Some(Piece::Pawn) if ranks == 2 => "after: double step",
        Some(Piece::Pawn) if files == 1 && board.piece_on(to).is_none() => "after: en passant",
        _ if board.piece_on(to).is_some() => "after: capture",
        _ => "after: quiet move",
    }
}

fn shown(stepped: &Stepped) -> String {
    format!("{} {}", stepped.number, records::show(&stepped.board))
}

fn same(what: &str, owed: Stepped, ours: Stepped) -> Result<(), String> {
    match ours == owed {
        true => Ok(()),
        false => Err(format!("{} {}, ours {}", what, shown(&owed), shown(&ours))),
    }
}

fn compare_legal(board: &Board, counters: Counters, number: u16, tally: &mut Tally) -> Result<(), String> {
    let before = counters.on(record_of_board(board));
    let (owed, rewritten) = owed_legal(board, counters, number);
    let owed = Stepped { number: 0, board: owed };
    same("crate", owed, abi::board_after(before, number as u64))?;
    let by_rule = after_rule::owed(&before, number as u64);
    if by_rule != owed {
        return Err(format!("crate {}, by the words of orders 9 and 12 {}", shown(&owed), shown(&by_rule)));
    }
    tally.fired[TAKEN_BESIDES] += rewritten as u64;
    tally.count(label(board, number), true);
    Ok(())
}

/// Records that no play need reach: kings, men anywhere, rights where king and rook stand at home, and often an en passant file beside a pawn.
pub(crate) fn odd_record(random: &mut Random) -> Record {
    let mut record = records::random(random);
    record.numbers[..64].iter_mut().filter(|man| **man % 6 == 0).for_each(|man| *man = 0);
    for (colour, back, pawn) in [(0u8, 0, 1), (1, 56, 7)] {
        record.numbers[back..back + 8].iter_mut().filter(|man| **man == 1 || **man == 7).for_each(|man| *man = 0);
        record.numbers[if random.once_in(2) { back + 4 } else { random.below(64) }] = 6 + 6 * colour;
        let at_home = record.numbers[back + 4] == 6 + 6 * colour;
        let rook = |square: usize, right: u8| if at_home && record.numbers[square] == 4 + 6 * colour { right } else { 0 };
        record.numbers[65 + colour as usize] &= rook(back, 2) | rook(back + 7, 1);
        if record.numbers[64] != colour && record.numbers[67] != 0 {
            let file = record.numbers[67] as usize - 1;
            record.numbers[(3 + colour as usize) * 8 + file] = pawn;
        }
    }
    record
}

/// None if the crate takes the record, which is in range, for no position.
pub(crate) fn crate_board(record: &Record) -> Option<Board> {
    let kings = |king: u8| record.numbers[..64].iter().filter(|man| **man == king).count();
    // The crate looks past the end of a table for a side without its king, before it refuses.
    if kings(6) != 1 || kings(12) != 1 {
        return None;
    }
    Board::try_from(&builder_of(record)).ok()
}

/// A move that is seldom far from what the order speaks of: along the rank, along the file, aslant; or any.
fn any_move(random: &mut Random) -> u64 {
    const STEPS: [i64; 14] = [2, -2, 2, -2, 16, -16, 7, 9, -7, -9, 1, -1, 8, -8];
    let from = random.below(64) as i64;
    let near = (from + random.pick(&STEPS)).rem_euclid(64);
    let to = if random.once_in(4) { random.below(64) as i64 } else { near };
    let promotion = if random.once_in(3) { random.below(7) as i64 } else { 0 };
    (from + 64 * to + 4_096 * promotion) as u64
}

/// Records in which kings, pawns and empty squares meet, or any; seldom one that is out of range.
pub(crate) fn any_record(random: &mut Random) -> Record {
    let mut record = records::random(random);
    if random.once_in(2) {
        for square in record.numbers[..64].iter_mut() {
            *square = *random.pick(&[0, 0, 0, 1, 1, 7, 7, 6, 12, 4, 10, 2, 9]);
        }
    }
    if random.once_in(12) {
        let at = random.below(NUMBERS);
        record.numbers[at] = *random.pick(&[2, 4, 9, 13, 14, 200, 255]);
    }
    if random.once_in(24) {
        records::put_counter_out_of_range(&mut record, random);
    }
    record
}

#[derive(Default)]
pub struct After {
    positions: Positions,
    /// The legal moves of a position that are still to be asked.
    left: Vec<(Board, u16)>,
}

impl After {
    fn legal(&mut self, random: &mut Random) -> Input {
        while self.left.is_empty() {
            let odd = if random.once_in(4) { crate_board(&odd_record(random)) } else { None };
            let board = odd.unwrap_or_else(|| self.positions.next(random));
            self.left = moves_of(&board).into_iter().map(|m| (board, number_of(m))).collect();
        }
        let (board, number) = self.left.pop().expect("it is not empty");
        Input::Legal(board, Counters::of(&records::counted(records::EMPTY, random)), number)
    }
}

/// Every legal move of the starts and of the positions after one move of theirs, and of the known exception, with counters at a game's beginning,
/// where a byte is full, before the last and at it.
fn legal_moves() -> impl Iterator<Item = Input> {
    let starts = STARTS.iter().chain(&[TAKES_BOTH]).map(|start| board_of(start));
    let and_next = starts.flat_map(|board| {
        let next: Vec<Board> = moves_of(&board).into_iter().map(|m| board.make_move_new(m)).collect();
        [board].into_iter().chain(next)
    });
    let counters = [(0, 1), (255, 255), (LAST_COUNT - 1, LAST_COUNT - 1), (LAST_COUNT, LAST_COUNT)];
    let counters = counters.map(|(half, full)| Counters { half, full });
    let numbers = and_next.flat_map(|board| moves_of(&board).into_iter().map(move |m| (board, number_of(m))));
    numbers.flat_map(move |(board, number)| counters.map(|counters| Input::Legal(board, counters, number)))
}

/// Every move number on some records, of which one is all kings, with both counters at the last, and one all pawns; and numbers past the last move,
/// at any size.
fn every_number() -> impl Iterator<Item = Input> {
    let mut random = Random::new(1, "after");
    let mut kings = Record { half_moves: LAST_COUNT, full_moves: LAST_COUNT, ..Record::of([6; NUMBERS]) };
    let mut pawns = Record { half_moves: 7, full_moves: 4, ..Record::of(std::array::from_fn(|at| [1, 7, 0][(at + at / 8) % 3])) };
    kings.numbers[64..].copy_from_slice(&[1, 3, 3, 8]);
    pawns.numbers[64..].copy_from_slice(&[0, 3, 3, 0]);
    let mut given = vec![records::EMPTY, record_of_board(&board_of(STARTS[0])), record_of_board(&board_of(STARTS[5])), kings, pawns];
    given.extend((0..3).map(|_| any_record(&mut random)));
    let past = [28_672, 32_767, 65_535, 65_536, 65_536 + 1_804, 70_000, 1 << 32, (1 << 32) + 1_804, u64::MAX];
    given.into_iter().flat_map(move |record| (0..28_672).chain(past).map(move |number| Input::Any(record, number)))
}

impl Part for After {
    type Input = Input;
    const NAME: &'static str = "after";

    fn fixed(&self) -> Box<dyn Iterator<Item = Input>> {
        Box::new(legal_moves().chain(every_number()))
    }

    fn random(&mut self, random: &mut Random) -> Option<Input> {
        if random.once_in(2) {
            return Some(self.legal(random));
        }
        let number = if random.once_in(12) { random.next() >> random.below(64) } else { any_move(random) };
        Some(Input::Any(any_record(random), number))
    }

    fn compare(&self, input: &Input, tally: &mut Tally) -> Result<(), String> {
        match input {
            Input::Legal(board, counters, number) => compare_legal(board, *counters, *number, tally),
            Input::Any(record, number) => {
                let owed = after_rule::owed(record, *number);
                same("orders 9 and 12", owed, abi::board_after(*record, *number))?;
                tally.count("after: any move", owed.number == 0);
                Ok(())
            }
        }
    }

    fn smaller(&self, input: &Input) -> Vec<Input> {
        match input {
            Input::Legal(board, counters, number) => vec![Input::Any(counters.on(record_of_board(board)), *number as u64)],
            Input::Any(record, number) => {
                let records = records::smaller(record).into_iter().map(|r| Input::Any(r, *number));
                let numbers = [number % 4_096, number / 2].into_iter().filter(|n| n != number);
                records.chain(numbers.map(|n| Input::Any(*record, n))).collect()
            }
        }
    }

    fn show(&self, input: &Input) -> String {
        match input {
            Input::Legal(board, counters, number) => format!("{} on {}", move_of(*number), counters.behind(&board.to_string())),
            Input::Any(record, number) => format!("move {} on {}", number, records::show(record)),
        }
    }
}
