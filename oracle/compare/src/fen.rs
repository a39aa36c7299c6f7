//! `fen-read` and `fen-write`: the crate's `BoardBuilder::from_str` and `Display` (board_builder.rs).

use crate::lent::check_writer;
use crate::part::{Part, Tally};
use crate::rules::{self, EN_PASSANT_RANK};
use crate::{records, texts};
use both::abi::{self, Answer, Fen, Record};
use both::games::{Positions, STARTS};
use both::numbers::{builder_of, record_of};
use both::random::Random;
use chess::{BoardBuilder, Error};
use std::str::FromStr;

pub(crate) const LETTERS: &[u8] = b"pnbrqkPNBRQK12345678/ wWbB-acegh0139x";
/// Token ends, a piece, a digit that is allowed and one that is not, and what each later token looks for.
const SHORT: &[u8] = b" wBKq/89pa3-";
const PLACING: &[u8] = b"pnbrqkPNBRQK12345678/09";

const PAPER: [&str; 5] =
    [" w - -", "8/8 w -", "8/8/8/8/8/8/8/9 w - -", "8/8/8/8/8/8/8/8 w - e4", "8/8/8/8/8/8/8/8 b - z9"];

#[derive(Default)]
pub struct FenRead(Positions);

/// What is owed for a text: the crate's record with the counters 0 and 1, whatever stands behind the fourth token, and offset 0; or its refusal with
/// zeros. The crate has one refusal where document 02 has three: a rule, which is told too, puts number and offset in its place.
pub fn owed_read(text: &str) -> Result<(Fen, Option<usize>), String> {
    match BoardBuilder::from_str(text) {
        Ok(builder) => Ok((Fen { number: 0, offset: 0, board: record_of(&builder) }, None)),
        Err(Error::InvalidFen { fen }) if fen == text => {
            let fault = rules::fault_of_fen(text);
            let (number, offset) = fault.map_or((1, 0), |fault| (fault.number, fault.offset as u64));
            Ok((Fen { number, offset, board: records::ZEROS }, fault.map(|fault| fault.rule)))
        }
        Err(error) => Err(format!("the crate gives {:?}", error)),
    }
}

/// Placements that go on past the edge, for the files and the ranks step around, and texts far longer than any FEN.
fn long_placements() -> impl Iterator<Item = String> {
    let rows = (0..80).map(|n| format!("{} w - -", "P".repeat(n)));
    let ranks = (0..20).map(|n| format!("{}k b - -", "/".repeat(n)));
    let digits = (0..20).map(|n| format!("{}Q b - -", "7".repeat(n)));
    let far = [65_535, 65_536, 65_537, 131_071, 131_072].iter();
    let far = far.flat_map(|n| ["P", "/", " ", "K"].map(|one| format!("{} w - - {}", one.repeat(*n), one.repeat(*n))));
    rows.chain(ranks).chain(digits).chain(far)
}

pub(crate) fn four_tokens(random: &mut Random) -> String {
    let length = random.below(72);
    let placement = texts::random(length, PLACING, random);
    let side = *random.pick(&["w", "b", "W", "B", "", "wb", "-"]);
    let rights = random.below(6);
    let rights = texts::random(rights, b"KQkq-x", random);
    let square = random.below(4);
    let square = texts::random(square, b"abcdefghi`123456780-", random);
    let tail = *random.pick(&["", " ", " 0 1", " 7 9 x", "  "]);
    format!("{} {} {} {}{}", placement, side, rights, square, tail)
}

pub(crate) fn good_fen(positions: &mut Positions, random: &mut Random) -> String {
    match random.once_in(2) {
        true => builder_of(&records::random(random)).to_string(),
        false => positions.next(random).to_string(),
    }
}

impl Part for FenRead {
    type Input = String;
    const NAME: &'static str = "fen-read";

    fn fixed(&self) -> Box<dyn Iterator<Item = String>> {
        let rows = PAPER.iter().chain(STARTS.iter()).map(|t| t.to_string());
        let placements = texts::all(PLACING, 3).map(|t| format!("{} w - -", t));
        let sides = texts::all(&texts::ASCII, 1).chain(texts::all(b"wWbB-", 2)).map(|t| format!("8 {} - -", t));
        let rights = texts::all(b"KQkq-x", 4).map(|t| format!("8 w {} -", t));
        let squares = texts::all(b"ahi`1890-", 3).map(|t| format!("8 b - {}", t));
        let short = texts::all(SHORT, 6);
        Box::new(rows.chain(placements).chain(sides).chain(rights).chain(squares).chain(long_placements()).chain(short))
    }

    fn random(&mut self, random: &mut Random) -> Option<String> {
        let length = texts::length_near(&[100, 128, 256, 1_024, 4_096], random);
        Some(match random.below(8) {
            0 => texts::random(length, LETTERS, random),
            1 => texts::random(length, &texts::ASCII, random),
            2 => texts::random_wide(length, LETTERS, random),
            3 => texts::damage(&four_tokens(random), LETTERS, true, random),
            4 => four_tokens(random),
            5 => good_fen(&mut self.0, random),
            _ => texts::damage(&good_fen(&mut self.0, random), LETTERS, true, random),
        })
    }

    fn compare(&self, text: &String, tally: &mut Tally) -> Result<(), String> {
        let (owed, rule) = owed_read(text)?;
        let lent = text.clone();
        let ours = abi::fen_read(lent.as_bytes());
        if ours != owed || lent != *text {
            let show = |fen: &Fen| format!("{} {} {}", fen.number, fen.offset, records::show(&fen.board));
            return Err(format!("owed {}, ours {}", show(&owed), show(&ours)));
        }
        if let Some(rule) = rule {
            tally.fired[rule] += 1;
        }
        tally.count("fen-read", owed.number == 0);
        Ok(())
    }

    fn smaller(&self, text: &String) -> Vec<String> {
        texts::cuts(text)
    }

    fn show(&self, text: &String) -> String {
        format!("{:?}", text)
    }
}

#[derive(Default)]
pub struct FenWrite(Positions);

/// Every side, rights and en passant file, at every room around the text's length, with counters that change from one to the next.
fn small_records() -> impl Iterator<Item = (Record, i64)> {
    (0..2 * 4 * 4 * 9).flat_map(|n: u16| {
        let mut r = Record { half_moves: 35 * n % 10_000, full_moves: 1 + 71 * n % 9_999, ..records::EMPTY };
        r.numbers[64..].copy_from_slice(&[n % 2, n / 2 % 4, n / 8 % 4, n / 32].map(|n| n as u8));
        (-90..=5).map(move |off| (r, off))
    })
}

/// What both writers owe: `owed` of a record in range, else 5.
pub(crate) fn check_counted(
    record: &Record, owed: &str, off: i64, write: fn(Record, &mut [u8]) -> Answer,
) -> Result<bool, String> {
    match records::counters_in_range(record) {
        true => check_writer(Ok(owed), off, |room| write(*record, room)),
        // Without a text the room is measured from 0, so it is lent some bytes that must stay.
        false => check_writer(Err(5), off + 100, |room| write(*record, room)),
    }
}

/// The crate's text of a record, by the rule of the en passant rank, and whether that fired. The crate writes ` 0 1` for any record.
pub(crate) fn owed_text(record: &Record) -> (String, bool) {
    rules::en_passant_rank(&builder_of(record).to_string())
}

/// A record of a game or any, with any counters, which are seldom out of range; and how much longer than its text the room is.
pub(crate) fn any_written(positions: &mut Positions, random: &mut Random) -> (Record, i64) {
    let mut record = match random.once_in(4) {
        true => records::counted(record_of(&BoardBuilder::from(positions.next(random))), random),
        false => records::random(random),
    };
    if random.once_in(24) {
        records::put_counter_out_of_range(&mut record, random);
    }
    (record, *random.pick(&[0, 0, 0, 1, 2, 60, -1, -2, -90]))
}

fn one_man() -> impl Iterator<Item = (Record, i64)> {
    (0..64 * 12).flat_map(|n| [(records::with(&[(n % 64, (n / 64) as u8 + 1)]), 0), (records::with(&[(n % 64, 1)]), -1)])
}

impl Part for FenWrite {
    /// A record, and how many bytes the lent room is longer than the text (shorter if below 0).
    type Input = (Record, i64);
    const NAME: &'static str = "fen-write";

    fn fixed(&self) -> Box<dyn Iterator<Item = (Record, i64)>> {
        Box::new(small_records().chain(one_man()))
    }

    fn random(&mut self, random: &mut Random) -> Option<(Record, i64)> {
        Some(any_written(&mut self.0, random))
    }

    fn compare(&self, (record, off): &(Record, i64), tally: &mut Tally) -> Result<(), String> {
        let (owed, fired) = owed_text(record);
        let written = check_counted(record, &owed, *off, abi::fen_write)?;
        tally.fired[EN_PASSANT_RANK] += fired as u64;
        tally.count("fen-write", written);
        Ok(())
    }

    fn smaller(&self, (record, off): &(Record, i64)) -> Vec<(Record, i64)> {
        records::smaller(record).into_iter().map(|r| (r, *off)).collect()
    }

    fn show(&self, (record, _): &(Record, i64)) -> String {
        records::show(record)
    }
}
