//! A game as it is filed, with its tag pairs as text.

use super::digest;
use super::played::Played;
use super::store::Filed;
use crate::games::{self, Game};

const RESULT: &str = "Result";

pub fn game(number: u64, game: &Game, played: Played) -> Filed {
    let pair = |(name, value): (&[u8], &[u8])| (text(name), text(&games::unquoted(value)));
    let mut tags: Vec<(String, String)> = game.tag_pairs().filter_map(games::parts).map(pair).collect();
    // Without its tag the result behind the moves would be lost; `*` is none.
    if let Some(result) = game.result.filter(|result| *result != "*" && !tags.iter().any(|(name, _)| name == RESULT)) {
        tags.push((RESULT.to_string(), result.to_string()));
    }
    let Played { moves, mut keys, branches, roll, text: variations, .. } = played;
    let (main, mark) = (keys.len(), digest::mark(&roll, &tags));
    keys.append(&branches);
    keys.fit();
    Filed { number, line: game.line, tags, moves, roll, variations, keys, main, mark }
}

/// Bytes as text: UTF-8, or else Windows-1252. A character 0 has no place in a database's text.
fn text(bytes: &[u8]) -> String {
    match std::str::from_utf8(bytes) {
        Ok(text) => text.replace('\0', "\u{fffd}"),
        Err(_) => bytes.iter().map(|byte| letter(*byte)).collect(),
    }
}

/// Bytes 128 to 159 as Windows-1252 has them. Five have no meaning there, and stay the control characters that they are in Latin-1.
const UPPER: [char; 32] = [
    '€', '\u{81}', '‚', 'ƒ', '„', '…', '†', '‡', 'ˆ', '‰', 'Š', '‹', 'Œ', '\u{8d}', 'Ž', '\u{8f}', '\u{90}', '‘', '’', '“', '”', '•', '–',
    '—', '˜', '™', 'š', '›', 'œ', '\u{9d}', 'ž', 'Ÿ',
];

fn letter(byte: u8) -> char {
    match byte {
        0 => char::REPLACEMENT_CHARACTER,
        128..160 => UPPER[usize::from(byte - 128)],
        _ => char::from(byte),
    }
}

#[cfg(test)]
mod tests {
    use super::*;

    #[test]
    fn what_is_not_utf_8_is_windows_1252() {
        assert_eq!(text("Zürich “x”\0".as_bytes()), "Zürich “x”\u{fffd}");
        assert_eq!(text(b"Z\xfcrich \x93x\x94 \x80\x9f\x81\0"), "Zürich “x” €Ÿ\u{81}\u{fffd}");
    }
}
