//! PGN move text (document 02, order 8), beside a walker made from the order's own words: tokens are cut off the front of what is left.

use crate::common::Numbers;
use menkhodur::lent::{self, DEEPEST_LEVEL, MovePart};
use menkhodur::{Error, MoveText, PgnMove};

/// What one token is.
enum Token {
    Passed,
    Move,
    Opens,
    Closes,
    Result,
    LeftOpen,
    Unknown,
}

fn front(text: &[u8], inside: impl Fn(u8) -> bool) -> usize {
    text.iter().position(|&b| !inside(b)).unwrap_or(text.len())
}

/// The token at the front of a text that is not empty, and how many bytes it has.
fn token(text: &[u8]) -> (Token, usize) {
    let results = ["1-0", "0-1", "1/2-1/2", "*"];
    if let Some(result) = results.iter().find(|r| text.starts_with(r.as_bytes())) {
        return (Token::Result, result.len());
    }
    match text[0] {
        b' ' | b'\t' | b'\r' | b'\n' => (Token::Passed, 1),
        b'a'..=b'h' | b'N' | b'B' | b'R' | b'Q' | b'K' | b'O' => {
            (Token::Move, front(text, |b| b.is_ascii_alphanumeric() || b"+#=-!?".contains(&b)))
        }
        b'0'..=b'9' => {
            let digits = front(text, |b| b.is_ascii_digit());
            (Token::Passed, digits + front(&text[digits..], |b| b == b'.'))
        }
        b'{' => match text.iter().position(|&b| b == b'}') {
            Some(at) => (Token::Passed, at + 1),
            None => (Token::LeftOpen, 0),
        },
        b';' => (Token::Passed, text.iter().position(|&b| b == b'\n').map_or(text.len(), |at| at + 1)),
        b'$' if text.get(1).is_some_and(u8::is_ascii_digit) => (Token::Passed, 1 + front(&text[1..], |b| b.is_ascii_digit())),
        b'(' => (Token::Opens, 1),
        b')' => (Token::Closes, 1),
        _ => (Token::Unknown, 0),
    }
}

/// The moves met from a place, and how the walk ends: a number and its offset.
fn walk(text: &[u8], offset: usize, level: u64) -> (Vec<MovePart>, (u64, usize)) {
    if level > 8 {
        return (vec![], (22, offset));
    }
    if offset > text.len() {
        return (vec![], (23, offset));
    }
    // Each open bracket with a number of its own and the offset that a text which leaves it open is refused with.
    let mut open: Vec<(usize, usize)> = (0..level as usize).map(|own| (own, offset)).collect();
    let (mut before, mut at, mut moves) = (open.clone(), offset, vec![]);
    let end = loop {
        if at == text.len() {
            break open.last().map_or((0, 0), |&(_, o)| (21, o));
        }
        let (token, length) = token(&text[at..]);
        match token {
            Token::Passed => {}
            Token::Move => {
                // What was open at the last place and is not now was closed; what is open now and was not then was opened.
                let closed = before.iter().filter(|bracket| !open.contains(bracket)).count();
                let opened = open.iter().filter(|bracket| !before.contains(bracket)).count();
                moves.push(MovePart { start: at, length, level: open.len() as u64, closed, opened });
                before.clone_from(&open);
            }
            Token::Opens if open.len() == 8 => break (22, at),
            Token::Opens => open.push((level as usize + at, at)),
            Token::Closes if open.pop().is_none() => break (23, at),
            Token::Closes => {}
            Token::Result if open.is_empty() => break (0, 0),
            Token::LeftOpen => break (21, at),
            Token::Result | Token::Unknown => break (23, at),
        }
        at += length;
    };
    (moves, end)
}

fn refusal((number, offset): (u64, usize)) -> Result<(), Error> {
    match number {
        0 => Ok(()),
        21 => Err(Error::LeftOpen { offset }),
        22 => Err(Error::TooDeep { offset }),
        _ => Err(Error::UnknownToken { offset }),
    }
}

/// Both calls and the iterator, on one text.
fn compare(text: &[u8]) {
    let (moves, end) = walk(text, 0, 0);
    let shown = String::from_utf8_lossy(text);
    assert_eq!(lent::pgn_check(text), refusal(end).map(|()| moves.len() as u64), "{shown:?}");
    assert_eq!(MoveText::new(text).check(), lent::pgn_check(text));
    let (mut given, mut last) = (vec![], Ok(()));
    for met in MoveText::new(text).moves() {
        match met {
            Ok(PgnMove { text: bytes, start, level, closed, opened }) => {
                assert!(std::ptr::eq(bytes, &raw const text[start..start + bytes.len()]), "{shown:?}: not the very part of the text");
                given.push(MovePart { start, length: bytes.len(), level, closed, opened });
            }
            Err(refused) => last = Err(refused),
        }
    }
    assert_eq!(given, moves, "{shown:?}");
    // From place to place only the offset of a bracket that is left open may differ: it is the place's, if opened before it.
    assert_eq!(last.map_err(|e| e.number()), refusal(end).map_err(|e| e.number()), "{shown:?}");
    if end.0 != 21 {
        assert_eq!(last, refusal(end), "{shown:?}");
    }
}

fn compare_from(text: &[u8], offset: usize, level: u64) {
    let (moves, end) = walk(text, offset, level);
    let owed = match moves.first() {
        Some(&first) => Ok(Some(first)),
        None => refusal(end).map(|()| None),
    };
    assert_eq!(lent::pgn_next(text, offset as u64, level), owed, "{:?} from {offset} at {level}", String::from_utf8_lossy(text));
}

#[test]
fn every_short_text() {
    let alphabet = b"10-/2*(){};$e.\n";
    for length in 0..=4_u32 {
        for number in 0..alphabet.len().pow(length) {
            let text: Vec<u8> = (0..length).map(|i| alphabet[number / alphabet.len().pow(i) % alphabet.len()]).collect();
            compare(&text);
            compare_from(&text, number % 6, (number % 11) as u64);
        }
    }
}

#[test]
fn soups_of_tokens() {
    let tokens = [
        "e4", "Nbxd2+", "O-O-O", "e8=Q#", "12.", "1...", "1", "(", "(", ")", ")", "{a (b}", "{", "}", "; x (\n", "$14", "$", "1-0", "0-1",
        "1/2-1/2", "*", "%", "\r\n", "\t",
    ];
    let mut numbers = Numbers(8);
    for _ in 0..20_000 {
        let mut text = String::new();
        for _ in 0..numbers.below(16) {
            text += tokens[numbers.below(tokens.len() as u64) as usize];
            text += ["", " "][numbers.below(2) as usize];
        }
        compare(text.as_bytes());
        compare_from(text.as_bytes(), numbers.below(text.len() as u64 + 2) as usize, numbers.below(10));
    }
}

#[test]
fn seven_eight_and_nine_levels() {
    for opened in 0..=10 {
        for closed in 0..=10 {
            let text = format!("{}e4{} *", "(".repeat(opened), ")".repeat(closed));
            compare(text.as_bytes());
        }
    }
    assert_eq!(DEEPEST_LEVEL, 8);
    let deepest = format!("{}e4", "(".repeat(8));
    assert_eq!(lent::pgn_next(deepest.as_bytes(), 0, 0), Ok(Some(MovePart { start: 8, length: 2, level: 8, closed: 0, opened: 8 })));
    assert_eq!(lent::pgn_next(b"(", 0, 8), Err(Error::TooDeep { offset: 0 }));
}

// Two games with the same moves at the same places and levels: two variations in the one, a longer one in the other.
#[test]
fn brackets_tell_two_variations_from_one() {
    let crossed = |text: &str| -> Vec<_> { MoveText::new(text).moves().map(|m| m.map(|m| (m.closed, m.opened)).unwrap()).collect() };
    assert_eq!(crossed("e4 (d4 d5) (c4 e5) e5"), [(0, 0), (0, 1), (0, 0), (1, 1), (0, 0), (1, 0)]);
    assert_eq!(crossed("e4 (d4 d5   c4 e5) e5"), [(0, 0), (0, 1), (0, 0), (0, 0), (0, 0), (1, 0)]);
    // Of a variation without a move, and of brackets in comments, nothing is told.
    assert_eq!(crossed("e4 () {(} ;)\n e5 ((d4)) (c4 (Nf3))"), [(0, 0), (0, 0), (0, 2), (2, 1), (0, 1)]);
}

#[test]
fn wide_places_are_judged_as_they_are() {
    for wide in [1 << 32, 1 << 63, u64::MAX] {
        assert_eq!(lent::pgn_next(b"e4", wide, 0), Err(Error::UnknownToken { offset: wide as usize }));
        assert_eq!(lent::pgn_next(b"e4", 0, wide), Err(Error::TooDeep { offset: 0 }));
        assert_eq!(lent::pgn_next(b"e4", wide, wide), Err(Error::TooDeep { offset: wide as usize }));
    }
}

#[test]
fn a_refused_text_gives_its_moves_first() {
    let given: Vec<_> = MoveText::new("1. e4 e5 (1... c5 1-0) Nf3").moves().collect();
    assert_eq!(given.iter().filter(|m| m.is_ok()).count(), 3);
    assert_eq!(given.last(), Some(&Err(Error::UnknownToken { offset: 18 })));
    let levels: Vec<u64> = MoveText::new("e4 (d4 (c4)) e5").moves_from(10, 2).map(|m| m.unwrap().level).collect();
    assert_eq!(levels, [0]);
}
