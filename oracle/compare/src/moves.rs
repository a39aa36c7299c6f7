//! `moves`: the crate's `FromStr` and `Display` of `ChessMove` (chess_move.rs), on ASCII texts and every move.

use crate::lent::check_writer;
use crate::part::{Part, Tally};
use crate::{rules, texts};
use both::abi::{self, Answer, Placed};
use both::numbers::{move_of, number_of, MOST_MOVE};
use both::random::Random;
use chess::{ChessMove, Error};
use std::str::FromStr;

#[derive(Clone)]
pub enum Input {
    Read(String),
    /// A move number, and how many bytes the lent room is longer than the text.
    Write(u16, i64),
}

pub struct Moves;

/// Document 01's rows, and the text that document 02's order 3 begins with.
const PAPER: [&str; 6] = ["e2e4q", "e2e4qx", "e2e4k", "e2e", "z9e4", "e2e9"];
const LETTERS: &[u8] = b"abcdefgh12345678qrnbkpQRNB09iZ -=x";
/// The ends of the files and ranks, what lies just past them, a promotion letter and one that is none.
const SHORT: &[u8] = b"ahi`1890qK";

/// The crate's answer, its two refusals by their numbers in document 01.
pub fn crate_reads(text: &str) -> Result<Answer, String> {
    match ChessMove::from_str(text) {
        Ok(m) => Ok(Answer { number: 0, value: number_of(m) as u64 }),
        Err(Error::InvalidSquare) => Ok(Answer { number: 2, value: 0 }),
        Err(Error::InvalidUciMove) => Ok(Answer { number: 3, value: 0 }),
        Err(error) => Err(format!("the crate gives {:?}", error)),
    }
}

/// What is owed for a text: the crate's move and offset 0, or the number of its refusal with the offset that a rule finds by
/// document 02, order 3. The rule, which is told too, must find a fault of that very number.
pub fn owed_read(text: &str) -> Result<(Placed, Option<usize>), String> {
    let Answer { number, value } = crate_reads(text)?;
    if number == 0 {
        return Ok((Placed { number, value, offset: 0 }, None));
    }
    match rules::fault_of_move(text) {
        Some(fault) if fault.number == number => {
            Ok((Placed { number, value, offset: fault.offset as u64 }, Some(fault.rule)))
        }
        other => Err(format!("the crate refuses with {}, and by document 02 the fault is {:?}", number, other)),
    }
}

/// Every pair of squares with every ASCII character behind it.
fn pairs_and_one() -> impl Iterator<Item = String> {
    (0..4096u16).flat_map(|n| texts::ASCII.iter().map(move |c| format!("{}{}", move_of(n), *c as char)))
}

impl Part for Moves {
    type Input = Input;
    const NAME: &'static str = "moves";

    fn fixed(&self) -> Box<dyn Iterator<Item = Input>> {
        let paper = PAPER.iter().map(|t| t.to_string());
        let short = texts::all(&texts::ASCII, 2).chain(texts::all(SHORT, 6));
        let writes = (0..=MOST_MOVE).flat_map(|n| (-6..=3).map(move |off| Input::Write(n, off)));
        Box::new(paper.chain(short).chain(pairs_and_one()).map(Input::Read).chain(writes))
    }

    fn random(&mut self, random: &mut Random) -> Option<Input> {
        let number = random.below(MOST_MOVE as usize + 1) as u16;
        let length = texts::length_near(&[8, 16, 256, 4_096], random);
        Some(match random.below(6) {
            0 => Input::Write(number, random.below(12) as i64 - 6),
            1 => Input::Read(texts::random(length, LETTERS, random)),
            2 => Input::Read(texts::random(length, &texts::ASCII, random)),
            3 => Input::Read(format!("{}{}", move_of(number), texts::random(length, LETTERS, random))),
            4 => Input::Read(move_of(number).to_string()),
            _ => Input::Read(texts::damage(&move_of(number).to_string(), LETTERS, false, random)),
        })
    }

    fn compare(&self, input: &Input, tally: &mut Tally) -> Result<(), String> {
        match input {
            Input::Read(text) => {
                let (owed, rule) = owed_read(text)?;
                let lent = text.clone();
                let ours = abi::move_read(lent.as_bytes());
                if ours != owed || lent != *text {
                    return Err(format!("owed {:?}, ours {:?}", owed, ours));
                }
                if let Some(rule) = rule {
                    tally.fired[rule] += 1;
                }
                tally.count("moves: read", owed.number == 0);
            }
            Input::Write(number, off) => {
                let owed = move_of(*number).to_string();
                let written = check_writer(Ok(&owed), *off, |room| abi::move_write(*number as u64, room))?;
                tally.count("moves: write", written);
            }
        }
        Ok(())
    }

    fn smaller(&self, input: &Input) -> Vec<Input> {
        match input {
            Input::Read(text) => texts::cuts(text).into_iter().map(Input::Read).collect(),
            Input::Write(..) => vec![],
        }
    }

    fn show(&self, input: &Input) -> String {
        match input {
            Input::Read(text) => format!("read {:?}", text),
            Input::Write(number, _) => format!("write {}", number),
        }
    }
}
