//! `steps`: the leaves, which are squares, rights and `CASTLES_PER_SQUARE` (square.rs, castle_rights.rs), and the builder's
//! steps (board_builder.rs), on numbers in range. The crate's builder has no counters: that its steps keep them, that the two steps of document 02's
//! order 12 set them, and what is out of range comes from the order's words.

use crate::clock::Counters;
use crate::part::{Part, Tally};
use crate::records;
use both::abi::{self, Answer, Record, Stepped, LAST_COUNT};
use both::numbers::{builder_of, color_of, man_of, record_of};
use both::random::Random;
use chess::{CastleRights, Square, ALL_FILES, ALL_RANKS, ALL_SQUARES};

#[derive(Clone, Debug)]
pub enum Leaf {
    Square(u8, u8),
    Add(u8, u8),
    Remove(u8, u8),
    SquareRights(u8, u8),
}

#[derive(Clone, Debug)]
pub enum Step {
    Piece(u8, u8),
    Clear(u8),
    Side(u8),
    Rights(u8, u8),
    EnPassant(u8),
    HalfMoves(u64),
    FullMoves(u64),
}

#[derive(Clone)]
pub enum Input {
    Leaf(Leaf),
    Step(Record, Step),
}

fn leaf_answers(leaf: &Leaf) -> (usize, Answer) {
    let rights = |n: u8| CastleRights::from_index(n as usize);
    match *leaf {
        Leaf::Square(rank, file) => {
            let square = Square::make_square(ALL_RANKS[rank as usize], ALL_FILES[file as usize]);
            (square.to_index(), abi::make_square(rank, file))
        }
        Leaf::Add(a, b) => (rights(a).add(rights(b)).to_index(), abi::rights_add(a, b)),
        Leaf::Remove(a, b) => (rights(a).remove(rights(b)).to_index(), abi::rights_remove(a, b)),
        Leaf::SquareRights(colour, square) => {
            let owed = CastleRights::square_to_castle_rights(color_of(colour), ALL_SQUARES[square as usize]);
            (owed.to_index(), abi::square_rights(colour, square))
        }
    }
}

/// Order 12: what a counter's step sets; none if the number, which has 64 bits and is never cut, is out of range.
fn counted(record: &Record, step: &Step) -> Option<Record> {
    let last = u64::from(LAST_COUNT);
    match *step {
        Step::HalfMoves(n) if n <= last => Some(Record { half_moves: n as u16, ..*record }),
        Step::FullMoves(n) if n >= 1 && n <= last => Some(Record { full_moves: n as u16, ..*record }),
        _ => None,
    }
}

/// What is owed, and ours. A step on a record with a counter out of range is 5 too, and hands it back.
fn step_answers(record: &Record, step: &Step) -> (Stepped, Stepped) {
    let (of_crate, ours) = builder_answers(record, step);
    let after = match step {
        _ if !records::counters_in_range(record) => None,
        Step::HalfMoves(_) | Step::FullMoves(_) => counted(record, step),
        _ => Some(Counters::of(record).on(of_crate)),
    };
    (after.map_or(Stepped { number: 5, board: *record }, |board| Stepped { number: 0, board }), ours)
}

/// The crate's record after a step, which has no counters, and our answer.
fn builder_answers(record: &Record, step: &Step) -> (Record, Stepped) {
    let mut builder = builder_of(record);
    let ours = match *step {
        Step::Piece(square, code) => {
            let (piece, color) = man_of(code).expect("a man's code");
            builder.piece(ALL_SQUARES[square as usize], piece, color);
            abi::piece(*record, square, code)
        }
        Step::Clear(square) => {
            builder.clear_square(ALL_SQUARES[square as usize]);
            abi::clear_square(*record, square)
        }
        Step::Side(colour) => {
            builder.side_to_move(color_of(colour));
            abi::side_to_move(*record, colour)
        }
        Step::Rights(colour, rights) => {
            builder.castle_rights(color_of(colour), CastleRights::from_index(rights as usize));
            abi::castle_rights(*record, colour, rights)
        }
        Step::EnPassant(file) => {
            builder.en_passant((file as usize).checked_sub(1).map(|f| ALL_FILES[f]));
            abi::en_passant(*record, file)
        }
        Step::HalfMoves(n) => abi::half_moves(*record, n),
        Step::FullMoves(n) => abi::full_moves(*record, n),
    };
    (record_of(&builder), ours)
}

/// Every count around the range, and numbers that would be in range if they were cut, on two records.
fn every_count() -> impl Iterator<Item = Input> {
    let far = [16, 31, 32, 48, 63].into_iter().flat_map(|bit| [0, 1, 7, 9_999].map(|n| (1 << bit) + n)).chain([u64::MAX, 65_535]);
    let counts = (0..u64::from(LAST_COUNT) + 100).chain(far);
    counts.flat_map(|n| {
        let full = Record { half_moves: LAST_COUNT, full_moves: LAST_COUNT, ..records::with(&[(4, 6)]) };
        [records::EMPTY, full].into_iter().flat_map(move |r| [Step::HalfMoves(n), Step::FullMoves(n)].map(|s| Input::Step(r, s)))
    })
}

/// Each step on records with a counter just out of range, zeros among them.
fn out_of_range() -> impl Iterator<Item = Input> {
    let over = LAST_COUNT + 1;
    let given = [records::ZEROS, Record { half_moves: over, ..records::EMPTY }, Record { full_moves: over, ..records::EMPTY }];
    let steps = [
        Step::Piece(0, 1), Step::Clear(0), Step::Side(1), Step::Rights(0, 3), Step::EnPassant(8), Step::HalfMoves(0), Step::FullMoves(1),
    ];
    steps.into_iter().flat_map(move |step| given.map(|record| Input::Step(record, step.clone())))
}

pub struct Steps;

impl Part for Steps {
    type Input = Input;
    const NAME: &'static str = "steps";

    fn fixed(&self) -> Box<dyn Iterator<Item = Input>> {
        let squares = (0..64).map(|n| Leaf::Square(n / 8, n % 8));
        let rights = (0..16).flat_map(|n| [Leaf::Add(n / 4, n % 4), Leaf::Remove(n / 4, n % 4)]);
        let castles = (0..128).map(|n| Leaf::SquareRights(n / 64, n % 64));
        Box::new(squares.chain(rights).chain(castles).map(Input::Leaf).chain(every_count()).chain(out_of_range()))
    }

    fn random(&mut self, random: &mut Random) -> Option<Input> {
        let far = random.next() >> random.below(64);
        let mut n = |most: usize| random.below(most) as u8;
        let step = match n(7) {
            0 => Step::Piece(n(64), 1 + n(12)),
            1 => Step::Clear(n(64)),
            2 => Step::Side(n(2)),
            3 => Step::Rights(n(2), n(4)),
            4 => Step::EnPassant(n(9)),
            5 => Step::HalfMoves(far),
            _ => Step::FullMoves(far),
        };
        let mut record = records::random(random);
        if random.once_in(16) {
            records::put_counter_out_of_range(&mut record, random);
        }
        Some(Input::Step(record, step))
    }

    fn compare(&self, input: &Input, tally: &mut Tally) -> Result<(), String> {
        match input {
            Input::Leaf(leaf) => {
                let (owed, ours) = leaf_answers(leaf);
                if ours != (Answer { number: 0, value: owed as u64 }) {
                    return Err(format!("crate {}, ours {:?}", owed, ours));
                }
                tally.count("steps: leaves", true);
            }
            Input::Step(record, step) => {
                let (owed, ours) = step_answers(record, step);
                if ours != owed {
                    let shown = |s: &Stepped| format!("{} {}", s.number, records::show(&s.board));
                    return Err(format!("owed {}, ours {}", shown(&owed), shown(&ours)));
                }
                tally.count("steps: builder", owed.number == 0);
            }
        }
        Ok(())
    }

    fn smaller(&self, input: &Input) -> Vec<Input> {
        match input {
            Input::Leaf(_) => vec![],
            Input::Step(record, step) => {
                records::smaller(record).into_iter().map(|r| Input::Step(r, step.clone())).collect()
            }
        }
    }

    fn show(&self, input: &Input) -> String {
        match input {
            Input::Leaf(leaf) => format!("{:?}", leaf),
            Input::Step(record, step) => format!("{:?} on {}", step, records::show(record)),
        }
    }
}
