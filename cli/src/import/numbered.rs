//! The number before a game's first move. A game without a start of its own begins with move 1: where another number stands, a piece of a game is cut off,
//! as by a tag pair in the middle of its moves, and played from the initial position it would be another game.

use super::refused::{At, Refusal};
use menkhodur::lent;

/// Refuses a text whose first move has another number than 1.
pub fn judge(text: &[u8]) -> Result<(), Refusal> {
    // What cannot be walked over is told by whoever plays it.
    let Ok(Some(first)) = lent::pgn_next(text, 0, 0) else { return Ok(()) };
    match number_before(&text[..first.start]) {
        Some(number) if !is_one(number) => Err(Refusal {
            kind: "start",
            answer: 0,
            at: At::Text(first.start),
            reason: format!("the game begins with move {}, and no FEN tag says from where", shown(number)),
            text: text[first.start..first.start + first.length].to_vec(),
        }),
        _ => Ok(()),
    }
}

/// The digits right before a move, without spaces and full stops between.
fn number_before(front: &[u8]) -> Option<&[u8]> {
    let front = front.trim_ascii_end();
    let front = &front[..front.iter().rposition(|byte| *byte != b'.').map_or(0, |last| last + 1)].trim_ascii_end();
    let digits = front.iter().rev().take_while(|byte| byte.is_ascii_digit()).count();
    let (before, number) = front.split_at(front.len() - digits);
    let apart = before.last().is_none_or(|byte| byte.is_ascii_whitespace() || *byte == b'}');
    (digits > 0 && apart).then_some(number)
}

fn is_one(number: &[u8]) -> bool {
    number.split_last().is_some_and(|(last, rest)| *last == b'1' && rest.iter().all(|digit| *digit == b'0'))
}

/// As much of it as a move's number may have.
fn shown(number: &[u8]) -> String {
    String::from_utf8_lossy(&number[..number.len().min(10)]).into_owned()
}

#[cfg(test)]
mod tests {
    use super::*;

    #[test]
    fn only_another_number_right_before_the_first_move_is_refused() {
        for text in [
            "",
            "e4",
            "1. e4",
            "1.e4",
            "1 e4",
            "01. e4",
            "1 . e4",
            "1... e4",
            "{x} 1. e4",
            "1. {2.} e4",
            "{a\n2.} e4",
            "$2 e4",
            "{2}e4",
            "*",
            "1. 2. )",
        ] {
            assert!(judge(text.as_bytes()).is_ok(), "{text}");
        }
        for (text, at, number) in
            [("2. Nf3", 3, "2"), ("12.Nf3 Nc6", 3, "12"), ("{x} 3... Nc6", 9, "3"), ("{x}3... Nc6", 8, "3"), ("0. e4", 3, "0")]
        {
            let refused = judge(text.as_bytes()).unwrap_err();
            assert_eq!((refused.at, refused.kind, refused.answer), (At::Text(at), "start", 0), "{text}");
            assert_eq!(refused.reason, format!("the game begins with move {number}, and no FEN tag says from where"));
        }
        let long = format!("{}1. e4", "1".repeat(1 << 20));
        assert!(judge(long.as_bytes()).unwrap_err().reason.len() < 80);
    }
}
