//! `settled`: the record without an en passant file that no pawn can use, and the key of a text's. Where the crate's `Board` takes a record, what it keeps
//! of it decides, with every number, written back through `BoardBuilder`; of any other, `settled_rule.rs`. What a text says comes from the crate's
//! `BoardBuilder`, and how it is refused from the rules of `fen-read`.

use crate::after::{any_record, crate_board, odd_record};
use crate::after_rule::in_range;
use crate::fen::{four_tokens, owed_read, owed_text, LETTERS};
use crate::lent::check_writer;
use crate::part::{Part, Tally};
use crate::rules::EN_PASSANT_RANK;
use crate::{records, settled_rule, texts};
use both::abi::{self, Answer, Record, Stepped, NUMBERS};
use both::games::{board_of, Positions, STARTS};
use both::numbers::{builder_of, record_of};
use both::random::Random;
use chess::BoardBuilder;

#[derive(Clone)]
pub enum Input {
    Settled(Record),
    /// A text, and how many bytes the lent room is longer than the key (shorter if below 0).
    Key(String, i64),
}

/// What the crate's `Board` keeps of a record, if it takes it. It has no counters: they are the record's.
fn kept_by_crate(record: &Record) -> Option<Record> {
    let board = in_range(record).then(|| crate_board(record)).flatten()?;
    let kept = record_of(&BoardBuilder::from(&board));
    Some(Record { half_moves: record.half_moves, full_moves: record.full_moves, ..kept })
}

/// The crate's text of a record, and the text of what its `Board` keeps of it, if it takes it.
pub fn told_by_crate(record: &Record) -> Option<(String, String)> {
    kept_by_crate(record).map(|kept| (owed_text(record).0, owed_text(&kept).0))
}

/// What is owed for a record, and whether the crate said so.
fn owed(record: &Record) -> Result<(Stepped, bool), String> {
    let by_rule = settled_rule::owed(record);
    let Some(board) = kept_by_crate(record) else {
        return Ok((by_rule, false));
    };
    let kept = Stepped { number: 0, board };
    match kept == by_rule {
        true => Ok((kept, true)),
        false => Err(format!("crate {}, by the words {}", shown(&kept), shown(&by_rule))),
    }
}

fn shown(stepped: &Stepped) -> String {
    format!("{} {}", stepped.number, records::show(&stepped.board))
}

fn compare_record(record: &Record, tally: &mut Tally) -> Result<(), String> {
    let (owed, by_crate) = owed(record)?;
    let (ours, again) = (abi::board_settled(*record), abi::board_settled(owed.board));
    if ours != owed || again != owed {
        return Err(format!("owed {}, ours {}, and again {}", shown(&owed), shown(&ours), shown(&again)));
    }
    let kept = owed.board.numbers[67] != 0;
    let label = match (by_crate, record.numbers[67] != 0, kept) {
        (true, true, true) => "settled: kept",
        (true, true, false) => "settled: cleared",
        (true, false, _) => "settled: no file",
        (false, ..) => "settled: any record",
    };
    tally.count(label, owed.number == 0);
    Ok(())
}

fn compare_key(text: &str, off: i64, tally: &mut Tally) -> Result<(), String> {
    let (read, rule) = owed_read(text)?;
    let key = match read.number {
        0 => Ok(owed_text(&owed(&read.board)?.0.board)),
        number => Err(number),
    };
    let (mut offset, lent) = (0, text.to_string());
    // Without a key the room is measured from 0, so it is lent some bytes that must stay.
    let off = if key.is_ok() { off } else { off + 100 };
    let written = check_writer(key.as_ref().map(|(key, _)| key.as_str()).map_err(|number| *number), off, |room| {
        let placed = abi::fen_settled(lent.as_bytes(), room);
        offset = placed.offset;
        Answer { number: placed.number, value: placed.value }
    })?;
    if offset != read.offset || lent != text {
        return Err(format!("owed the offset {}, ours {}, and the text {:?}", read.offset, offset, lent));
    }
    rule.into_iter().for_each(|rule| tally.fired[rule] += 1);
    tally.fired[EN_PASSANT_RANK] += key.is_ok_and(|(_, fired)| fired) as u64;
    tally.count("settled: key", written);
    Ok(())
}

fn with_tail(mut record: Record, side: u8, file: u8) -> Record {
    (record.numbers[64], record.numbers[67]) = (side, file);
    record
}

/// Either side to move, with each file and with none.
fn with_files(record: Record) -> impl Iterator<Item = Record> {
    (0..18).map(move |n| with_tail(record, n % 2, n / 2))
}

/// One man anywhere; and the same between two kings, with a pawn on the file that has moved, which is a position of the crate's.
fn one_man() -> impl Iterator<Item = Record> {
    let alone = (0..64 * 12).map(|n| records::with(&[(n % 64, (n / 64) as u8 + 1)]));
    alone.flat_map(|record| with_files(record).chain(with_files(record).map(between_kings)))
}

fn between_kings(mut record: Record) -> Record {
    let (side, file) = (record.numbers[64], record.numbers[67] as usize);
    if file > 0 {
        let (rank, pawn) = if side == 0 { (4, 7) } else { (3, 1) };
        record.numbers[8 * rank + file - 1] = pawn;
    }
    (record.numbers[4], record.numbers[60]) = (6, 12);
    record
}

/// Each number out of range alone, and each counter.
fn out_of_range() -> impl Iterator<Item = Record> {
    let start = record_of(&BoardBuilder::from(&board_of(STARTS[0])));
    let numbers = (0..NUMBERS).flat_map(move |at| [13, 255].map(|number| { let mut r = start; r.numbers[at] = number; r }));
    let halves = [10_000, u16::MAX].map(|half_moves| Record { half_moves, ..start });
    numbers.chain(halves).chain([0, 10_000, u16::MAX].map(|full_moves| Record { full_moves, ..start }))
}

fn key_of(record: &Record) -> String {
    builder_of(record).to_string()
}

/// The texts of the starts with every file in rooms around the key's length, one in every room, and all short texts.
fn fixed_keys() -> impl Iterator<Item = Input> {
    let starts = STARTS.iter().flat_map(|start| with_files(record_of(&BoardBuilder::from(&board_of(start)))));
    let around = starts.flat_map(|record| [-1, 0, 1].map(|off| Input::Key(key_of(&record), off)));
    let rooms = ["8/8/8/8/4P3/8/8/8 b - e3", "8/8/8/8/3pP3/8/8/8 b - e3 7 20", "8/8 w -", "x x - -", "K8 x - -"];
    let rooms = rooms.into_iter().flat_map(|text| (-90..=5).map(move |off| Input::Key(text.to_string(), off)));
    around.chain(rooms).chain(texts::all(b" wb8xP", 6).map(|text| Input::Key(text, 0)))
}

#[derive(Default)]
pub struct Settled(Positions);

impl Settled {
    /// A position of a game or an odd one with any file put in; or any record.
    fn record(&mut self, random: &mut Random) -> Record {
        let record = match random.below(4) {
            0 => return any_record(random),
            1 => odd_record(random),
            _ => records::counted(record_of(&BoardBuilder::from(&self.0.next(random))), random),
        };
        let (side, file) = (record.numbers[64], random.below(9) as u8);
        let side = if random.once_in(4) { 1 - side } else { side };
        near(with_tail(record, side, file), random)
    }
}

/// Often with a pawn that has moved, and with a man on a square before or behind it, on its rank or a rank away: round the edge too.
fn near(mut record: Record, random: &mut Random) -> Record {
    let file = record.numbers[67] as usize;
    if file == 0 || random.once_in(4) {
        return record;
    }
    let (rank, pawn, enemy) = if record.numbers[64] == 0 { (4, 1, 7) } else { (3, 7, 1) };
    let step = *random.pick(&[-1, 1, -1, 1, -1, 1, -9, 9, -7, 7, -2, 2]);
    let (moved, beside) = (8 * rank + file - 1, (8 * rank + file - 1) as i64 + step);
    for (square, man) in [(moved, enemy), (beside as usize, *random.pick(&[pawn, pawn, pawn, enemy, 2, 8]))] {
        // A king stays, or the crate would not be asked.
        if record.numbers[square] != 6 && record.numbers[square] != 12 {
            record.numbers[square] = man;
        }
    }
    record
}

impl Part for Settled {
    type Input = Input;
    const NAME: &'static str = "settled";

    fn fixed(&self) -> Box<dyn Iterator<Item = Input>> {
        let starts = STARTS.iter().flat_map(|start| with_files(record_of(&BoardBuilder::from(&board_of(start)))));
        Box::new(one_man().chain(starts).chain(out_of_range()).map(Input::Settled).chain(fixed_keys()))
    }

    fn random(&mut self, random: &mut Random) -> Option<Input> {
        if !random.once_in(4) {
            return Some(Input::Settled(self.record(random)));
        }
        let record = self.record(random);
        // The crate writes a record in range alone.
        let text = if in_range(&record) { key_of(&record) } else { four_tokens(random) };
        let off = *random.pick(&[0, 0, 0, 1, 2, 60, -1, -2, -90]);
        Some(match random.below(4) {
            0 => Input::Key(texts::damage(&text, LETTERS, true, random), off),
            _ => Input::Key(text, off),
        })
    }

    fn compare(&self, input: &Input, tally: &mut Tally) -> Result<(), String> {
        match input {
            Input::Settled(record) => compare_record(record, tally),
            Input::Key(text, off) => compare_key(text, *off, tally),
        }
    }

    fn smaller(&self, input: &Input) -> Vec<Input> {
        match input {
            Input::Settled(record) => records::smaller(record).into_iter().map(Input::Settled).collect(),
            Input::Key(text, off) => texts::cuts(text).into_iter().map(|text| Input::Key(text, *off)).collect(),
        }
    }

    fn show(&self, input: &Input) -> String {
        match input {
            Input::Settled(record) => records::show(record),
            Input::Key(text, _) => format!("{:?}", text),
        }
    }
}
