//! The same job as `menkhodur_roll_differences`, with the same checks and nothing written when refused, in plain safe Rust, as one
//! would write it who has no proofs: both rolls are read into a `Vec` of action numbers, and the lines are formatted into another.

use crate::plain;
use both::abi::{Answer, Record};
use std::io::Write;

/// The start and the actions' numbers, or the refusal.
fn read(roll: &[u8]) -> Result<(Record, Vec<u32>), u64> {
    let (start, count, text) = plain::opened(roll)?;
    let mut numbers = Vec::with_capacity(count);
    plain::walk(text, count, |_, [kind, colour, low, high]| {
        numbers.push(u32::from(kind * 2 + colour) + 16 * u32::from(u16::from_le_bytes([low, high])));
    })?;
    Ok((start, numbers))
}

fn lines(first: &(Record, Vec<u32>), second: &(Record, Vec<u32>)) -> Vec<u8> {
    let mut text = Vec::new();
    for (place, (a, b)) in first.0.numbers.iter().zip(second.0.numbers).enumerate() {
        if *a != b {
            let key = ["side", "white", "black", "ep"];
            match place {
                0..=63 => writeln!(text, "{place} {a} {b}"),
                _ => writeln!(text, "{} {a} {b}", key[place - 64]),
            }
            .expect("a Vec takes all");
        }
    }
    let counters = [("half", first.0.half_moves, second.0.half_moves), ("full", first.0.full_moves, second.0.full_moves)];
    for (key, a, b) in counters.into_iter().filter(|(_, a, b)| a != b) {
        writeln!(text, "{key} {a} {b}").expect("a Vec takes all");
    }
    let (xs, ys) = (&first.1, &second.1);
    let same = xs.iter().zip(ys).take_while(|(a, b)| a == b).count();
    if same < xs.len().max(ys.len()) {
        let number = |numbers: &[u32]| numbers.get(same).copied().unwrap_or(0);
        writeln!(text, "action {same} {} {}", number(xs), number(ys)).expect("a Vec takes all");
    }
    text
}

fn try_differences(first: &[u8], second: &[u8], out: &mut [u8]) -> Result<Answer, u64> {
    let text = lines(&read(first)?, &read(second)?);
    let value = text.len() as u64;
    match out.get_mut(..text.len()) {
        Some(front) => front.copy_from_slice(&text),
        None => return Ok(Answer { number: 7, value }),
    }
    Ok(Answer { number: 0, value })
}

pub fn differences(first: &[u8], second: &[u8], out: &mut [u8]) -> Answer {
    try_differences(first, second, out).unwrap_or_else(|number| Answer { number, value: 0 })
}
