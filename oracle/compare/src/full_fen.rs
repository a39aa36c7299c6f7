//! `full-read` and `full-write`: the FEN pair that keeps the counters (document 02, order 12). Of the first four tokens the crate decides, as in
//! `fen-read` and `fen-write`; of the counters `full_rule.rs`, written from the order's words.

use crate::fen::{any_written, check_counted, four_tokens, good_fen, owed_read, owed_text, LETTERS};
use crate::full_rule;
use crate::part::{Part, Tally};
use crate::{records, texts};
use both::abi::{self, Fen, Record, LAST_COUNT, LONGEST_FULL_FEN};
use both::games::{Positions, STARTS};
use both::random::Random;

const BAD_COUNTER: u64 = 25;

/// A digit that may lead and one that may not, signs of other forms of numbers, and what ends a token.
const SHORT: &[u8] = b" 019+-.";
/// The settled readings at their smallest: the order of the refusals, and their offsets.
const SETTLED: [&str; 14] = [
    "", "8 w -", "9 w - -", "8 x - -", "8 w - -", "8 w - - ", "8 w - - x", "8 w - -  1", "8 w - - 0", "8 w - - 0 0", "8 w - - 0 1\r", "9 x - - x",
    "8 x - - x", "8 w - - 0001 0001 and more",
];
/// What may stand in each of the first two tokens, good and bad, and in the last two.
const FIRST: [&str; 4] = ["8", "", "9", "k7/x"];
const SECOND: [&str; 4] = ["w", "B", "", "x"];
const LAST: [&str; 12] = ["0", "1", "9999", "0001", "", "00", "0000", "00001", "10000", "x", "+1", "1\r"];

/// What the full reader owes for a text.
pub fn owed_full(text: &str) -> Result<Fen, String> {
    let (fen, _) = owed_read(text)?;
    if fen.number != 0 {
        return Ok(fen);
    }
    Ok(match full_rule::counters(text.as_bytes()) {
        Ok((half_moves, full_moves)) => Fen { board: Record { half_moves, full_moves, ..fen.board }, ..fen },
        Err(offset) => Fen { number: BAD_COUNTER, offset: offset as u64, board: records::ZEROS },
    })
}

fn shown(fen: &Fen) -> String {
    format!("{} {} {}", fen.number, fen.offset, records::show(&fen.board))
}

/// Every way in which tokens are bad or missing at once, with something behind them or not.
fn mixed_tokens() -> impl Iterator<Item = String> {
    let four = FIRST.iter().flat_map(|first| SECOND.iter().map(move |second| format!("{} {} - -", first, second)));
    four.flat_map(|four| {
        let five = LAST.map(|fifth| format!("{} {}", four, fifth));
        let six = five.clone().into_iter().flat_map(|five| LAST.map(|sixth| format!("{} {}", five, sixth)));
        let more: Vec<String> = six.clone().flat_map(|six| ["", "2"].map(|tail| format!("{} {}", six, tail))).collect();
        [four].into_iter().chain(five).chain(six).chain(more).collect::<Vec<_>>()
    })
}

/// Every number of up to five digits around the last count as either token, plain and with zeros before it.
fn every_number() -> impl Iterator<Item = String> {
    (0..u32::from(LAST_COUNT) + 100).flat_map(|n| {
        let texts = [n.to_string(), format!("{:02}", n), format!("{:03}", n), format!("{:04}", n), format!("{:05}", n)];
        texts.into_iter().flat_map(|t| [format!(" b - - {} 1", t), format!(" w - h6 0 {}", t)])
    })
}

/// A token that is a counter as a rule, and else nearly one.
fn any_token(random: &mut Random) -> String {
    let counter = records::random_counter(0, random);
    match random.below(16) {
        0 => texts::damage(&counter.to_string(), b"0123456789+-.x", true, random),
        1 => random.pick(&LAST).to_string(),
        2 => format!("{:04}", counter),
        3 => (u32::from(counter) + 10_000).to_string(),
        _ => counter.max(1).to_string(),
    }
}

/// The text's first four tokens with any others behind them.
fn with_counters(text: &str, random: &mut Random) -> String {
    let mut tokens: Vec<String> = text.split(' ').take(4).map(str::to_string).collect();
    let more = if random.once_in(10) { random.below(2) } else { 2 + random.below(5) / 4 };
    tokens.extend((0..more).map(|_| any_token(random)));
    tokens.join(" ")
}

#[derive(Default)]
pub struct FullRead(Positions);

impl Part for FullRead {
    type Input = String;
    const NAME: &'static str = "full-read";

    fn fixed(&self) -> Box<dyn Iterator<Item = String>> {
        let rows = SETTLED.iter().chain(STARTS.iter()).map(|t| t.to_string());
        let short = texts::all(SHORT, 6).flat_map(|t| [format!("8 w - -{}", t), format!("8 w - - 7{}", t), format!("8 w - - 7 {}", t)]);
        let bytes = texts::all(&texts::ASCII, 2).flat_map(|t| [format!("8 w - - {} 1", t), format!("8 w - - 1 {}", t)]);
        let far = [65_535, 65_536, 131_072].into_iter().flat_map(|n| ["0", "1", " "].map(|one| format!("8 w - - 1 {}", one.repeat(n))));
        Box::new(rows.chain(mixed_tokens()).chain(short).chain(bytes).chain(every_number()).chain(far))
    }

    fn random(&mut self, random: &mut Random) -> Option<String> {
        let text = match random.below(8) {
            0 => four_tokens(random),
            1 => texts::damage(&good_fen(&mut self.0, random), LETTERS, true, random),
            _ => good_fen(&mut self.0, random),
        };
        let counted = with_counters(&text, random);
        Some(if random.once_in(6) { texts::damage(&counted, LETTERS, true, random) } else { counted })
    }

    fn compare(&self, text: &String, tally: &mut Tally) -> Result<(), String> {
        let owed = owed_full(text)?;
        let lent = text.clone();
        let ours = abi::fen_read_full(lent.as_bytes());
        if ours != owed || lent != *text {
            return Err(format!("owed {}, ours {}", shown(&owed), shown(&ours)));
        }
        tally.count("full-read", owed.number == 0);
        beside_the_crates(text, &ours, tally)
    }

    fn smaller(&self, text: &String) -> Vec<String> {
        texts::cuts(text)
    }

    fn show(&self, text: &String) -> String {
        format!("{:?}", text)
    }
}

/// Our two readers on one text: where the full one accepts, the crate's accepts with the same 68 numbers; 18, 19 and 20 are the crate reader's, with
/// the same offset and zeros; and where 25 is told, the crate's accepts.
fn beside_the_crates(text: &str, full: &Fen, tally: &mut Tally) -> Result<(), String> {
    let plain = abi::fen_read(text.as_bytes());
    let same = match full.number {
        0 => plain == Fen { board: Record::of(full.board.numbers), ..*full },
        BAD_COUNTER => plain.number == 0,
        _ => plain == *full,
    };
    if !same {
        return Err(format!("the full reader tells {}, the crate's reader {}", shown(full), shown(&plain)));
    }
    tally.count("full-read: both", plain.number == 0);
    Ok(())
}

#[derive(Default)]
pub struct FullWrite(Positions);

/// The crate's text with the record's own counters in place of its ` 0 1`.
pub fn owed_full_text(record: &Record) -> Result<String, String> {
    let (text, _) = owed_text(record);
    let front = text.strip_suffix(" 0 1").ok_or(format!("the crate writes {:?}", text))?;
    Ok(format!("{} {} {}", front, record.half_moves, record.full_moves))
}

/// The longest text: a man on each square, all rights, a file, and counters of four digits; in every room, and with each shorter counter.
fn longest() -> impl Iterator<Item = (Record, i64)> {
    let mut record = Record { half_moves: LAST_COUNT, full_moves: LAST_COUNT, ..records::with(&[]) };
    record.numbers.fill(5);
    record.numbers[64..].copy_from_slice(&[1, 3, 3, 8]);
    let rooms = (-(LONGEST_FULL_FEN as i64) - 1..=5).map(move |off| (record, off));
    let shorter = [0, 9, 10, 99, 100, 999, 1_000].into_iter().flat_map(move |n| {
        [(Record { half_moves: n, ..record }, 0), (Record { full_moves: n.max(1), ..record }, 0)]
    });
    rooms.chain(shorter)
}

/// Every count as the clock and as the move number, and numbers past the last.
fn every_count() -> impl Iterator<Item = (Record, i64)> {
    let past = [LAST_COUNT + 1, 16_383, 16_384, 32_767, 32_768, u16::MAX];
    let clocks = (0..=LAST_COUNT).chain(past).map(|half_moves| (Record { half_moves, ..records::EMPTY }, 0));
    let moves = (0..=LAST_COUNT).chain(past).map(|full_moves| (Record { full_moves, ..records::EMPTY }, 0));
    clocks.chain(moves)
}

impl Part for FullWrite {
    /// A record, and how many bytes the lent room is longer than the text (shorter if below 0).
    type Input = (Record, i64);
    const NAME: &'static str = "full-write";

    fn fixed(&self) -> Box<dyn Iterator<Item = (Record, i64)>> {
        Box::new(longest().chain(every_count()))
    }

    fn random(&mut self, random: &mut Random) -> Option<(Record, i64)> {
        Some(any_written(&mut self.0, random))
    }

    /// What was written must also be read back to the record, all 70 numbers.
    fn compare(&self, (record, off): &(Record, i64), tally: &mut Tally) -> Result<(), String> {
        let owed = owed_full_text(record)?;
        let written = check_counted(record, &owed, *off, abi::fen_write_full)?;
        tally.count("full-write", written);
        if written {
            let back = abi::fen_read_full(owed.as_bytes());
            if back != (Fen { number: 0, offset: 0, board: *record }) || owed.len() > LONGEST_FULL_FEN {
                return Err(format!("{:?} is read back as {}", owed, shown(&back)));
            }
            tally.count("full-write: read back", true);
        }
        Ok(())
    }

    fn smaller(&self, (record, off): &(Record, i64)) -> Vec<(Record, i64)> {
        records::smaller(record).into_iter().map(|r| (r, *off)).collect()
    }

    fn show(&self, (record, off): &(Record, i64)) -> String {
        format!("{}, room {:+}", records::show(record), off)
    }
}

#[test]
fn the_longest_has_91_bytes() {
    let lengths = longest().map(|(record, _)| owed_full_text(&record).expect("a text").len());
    assert_eq!(lengths.max(), Some(LONGEST_FULL_FEN));
}
