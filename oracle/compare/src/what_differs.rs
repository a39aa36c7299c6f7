//! What differs between two games, as document 02, orders 10 and 12, tells it. Written from the paper's words, over the games that `roll` reads,
//! and never from our code, so that it can judge our call.

use crate::roll::{self, Form};
use both::abi::{Record, ACTIONS_LENGTH};

/// "The start squares, keyed by number, `side`, `white`, `black`, `ep`"; order 12 "keys them `half` and `full` after `ep`".
fn key(place: usize) -> String {
    match place {
        0..=63 => place.to_string(),
        64 => "side".to_string(),
        65 => "white".to_string(),
        66 => "black".to_string(),
        67 => "ep".to_string(),
        68 => "half".to_string(),
        69 => "full".to_string(),
        _ => unreachable!("a start has 70 numbers"),
    }
}

/// All 70 numbers of a start.
fn numbers(start: &Record) -> impl Iterator<Item = u32> + '_ {
    start.numbers.iter().map(|number| u32::from(*number)).chain([start.half_moves, start.full_moves].map(u32::from))
}

/// "An action's number is 0 if there is none, else its roll code + 16 × the move."
fn action_number(bytes: Option<&[u8]>) -> u32 {
    bytes.map_or(0, |bytes| {
        let code = bytes[0] as u32 * 2 + bytes[1] as u32;
        code + 16 * u16::from_le_bytes([bytes[2], bytes[3]]) as u32
    })
}

/// "Its key, then the first and the second game's number, single spaces between."
fn line(key: &str, first: u32, second: u32) -> String {
    format!("{} {} {}\n", key, first, second)
}

/// The lines of two games: of the start numbers that differ, then of the first action that differs.
fn lines(first: &(Record, Vec<u8>), second: &(Record, Vec<u8>)) -> String {
    let mut text = String::new();
    for (place, (a, b)) in numbers(&first.0).zip(numbers(&second.0)).enumerate() {
        if a != b {
            text += &line(&key(place), a, b);
        }
    }
    let longer = first.1.len().max(second.1.len()) / 4;
    for index in 0..longer {
        let a = action_number(first.1.chunks_exact(4).nth(index));
        let b = action_number(second.1.chunks_exact(4).nth(index));
        if a != b {
            text += &line(&format!("action {}", index), a, b);
            break;
        }
    }
    text
}

/// The text owed, or the refusal: "those of the roll reader, first roll first", which reads no old rolls.
pub fn owed(first: &[u8], second: &[u8]) -> Result<String, u64> {
    let first = roll::owed_read(Form::New, first, ACTIONS_LENGTH)?;
    let second = roll::owed_read(Form::New, second, ACTIONS_LENGTH)?;
    Ok(lines(&first, &second))
}

#[test]
fn the_papers_rows() {
    let with = |behind: &[u8]| [&[0; 68][..], behind].concat();
    let plain = with(&[0, 1, 0]);
    let mut pawn = plain.clone();
    pawn[28] = 1;
    assert_eq!(owed(&pawn, &plain).as_deref(), Ok("28 1 0\n"));
    let offers = |n: usize| [with(&[0, 1, n as u8]), vec![4; n]].concat();
    assert_eq!(owed(&offers(1), &offers(3)).as_deref(), Ok("action 1 0 4\n"));
    assert_eq!(owed(&offers(3), &offers(3)).as_deref(), Ok(""));
    let moved = with(&[0, 1, 1, 2, 255, 223, 1]);
    assert_eq!(owed(&moved, &offers(1)).as_deref(), Ok("action 0 458738 4\n"));
    let mut late = with(&[143, 78, 143, 78, 0]);
    late[67] = 8;
    assert_eq!(owed(&late, &offers(1)).as_deref(), Ok("ep 8 0\nhalf 9999 0\nfull 9999 1\naction 0 0 4\n"));
    assert_eq!(owed(&[], &[13]), Err(17));
    assert_eq!(owed(&plain, &[13]), Err(5));
    assert_eq!(owed(&plain, &with(&[0])), Err(17));
}
