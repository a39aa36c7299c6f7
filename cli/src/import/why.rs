//! Why a move text is not read over a list, for whoever has to mend it. The archive says 4 and no more.

use menkhodur::lent::Record;

const NAMES: [&str; 6] = ["pawn", "knight", "bishop", "rook", "queen", "king"];

/// The place of the last square that a text names.
pub fn destination(text: &[u8]) -> Option<usize> {
    text.windows(2).rposition(|pair| matches!(pair, [b'a'..=b'h', b'1'..=b'8']))
}

/// The kind of man that a text names, the pawn being 0.
fn kind(text: &[u8]) -> usize {
    text.first().and_then(|letter| b"NBRQK".iter().position(|known| known == letter)).map_or(0, |place| place + 1)
}

/// What the text says that no listed move, or more than one, has.
pub fn not_read(record: &Record, list: &[u16], text: &[u8]) -> String {
    if text.starts_with(b"O") {
        return "castling like this is not possible here".to_string();
    }
    let Some(at) = destination(text) else { return "the text names no square to go to".to_string() };
    let to = u16::from(text[at] - b'a') + 8 * u16::from(text[at + 1] - b'1');
    let (kind, square) = (kind(text), String::from_utf8_lossy(&text[at..at + 2]));
    let goes = |number: &u16| number >> 6 & 63 == to && kind_on(record, number & 63) == Some(kind);
    let mut sources: Vec<u16> = list.iter().copied().filter(goes).map(|number| number & 63).collect();
    // A pawn that promotes is listed once for each man that it may become.
    sources.sort_unstable();
    sources.dedup();
    let all = sources.len();
    sources.retain(|source| named(*source, &text[..at]));
    match sources.as_slice() {
        [] if all == 0 => format!("no {} can go to {square}", NAMES[kind]),
        [] => format!("no {} from there can go to {square}", NAMES[kind]),
        [source] => spelling(record, *source, to, text).to_string(),
        _ => format!("more than one {} can go to {square}", NAMES[kind]),
    }
}

fn kind_on(record: &Record, square: u16) -> Option<usize> {
    let man = usize::from(*record.numbers.get(usize::from(square))?);
    man.checked_sub(1).map(|kind| kind % 6)
}

/// Whether a square is on the file and the rank that stand before a destination, if any do.
fn named(source: u16, front: &[u8]) -> bool {
    let (file, rank) = (b'a' + (source & 7) as u8, b'1' + (source >> 3) as u8);
    front.iter().all(|byte| match byte {
        b'a'..=b'h' => *byte == file,
        b'1'..=b'8' => *byte == rank,
        _ => true,
    })
}

/// What is wrong with a text that means one man alone.
fn spelling(record: &Record, source: u16, to: u16, text: &[u8]) -> &'static str {
    let is_pawn = kind_on(record, source) == Some(0);
    let captures = kind_on(record, to).is_some() || is_pawn && source & 7 != to & 7;
    let promotes = is_pawn && !(8..56).contains(&to);
    let told = text.windows(2).any(|pair| matches!(pair, [b'=', b'N' | b'B' | b'R' | b'Q']));
    match text.contains(&b'x') {
        true if !captures => "the move captures nothing, and the text has an x",
        false if captures => "the move captures, and the text has no x",
        _ if promotes && !told => "what the pawn becomes must be told as =N, =B, =R or =Q",
        _ => "the text is not in the form of the PGN standard",
    }
}

#[cfg(test)]
mod tests {
    use super::*;
    use menkhodur::{Lent, lent};

    #[test]
    fn it_is_told_what_no_listed_move_has() {
        for (fen, text, owed) in [
            ("4k3/8/8/8/8/8/8/4K2R w - -", "O-O", "castling like this is not possible here"),
            ("4k3/8/8/8/8/8/4P3/4K3 w - -", "e", "the text names no square to go to"),
            ("4k3/8/8/8/8/8/4P3/4K3 w - -", "Nf3", "no knight can go to f3"),
            ("4k3/8/8/8/8/8/4P3/4K3 w - -", "Ke3", "no king can go to e3"),
            ("4k3/8/8/8/8/8/4P3/4K3 w - -", "d2e3", "no pawn from there can go to e3"),
            ("4k3/8/8/8/8/8/8/1N2KN2 w - -", "Nd2", "more than one knight can go to d2"),
            ("4k3/8/8/8/8/8/8/1N2KN2 w - -", "Nbxd2", "the move captures nothing, and the text has an x"),
            ("4k3/8/8/8/8/8/3p4/1N2KN2 w - -", "Nfd2", "the move captures, and the text has no x"),
            ("4k3/8/8/3pP3/8/8/8/4K3 w - d6", "ed6", "the move captures, and the text has no x"),
            ("3rk3/4P3/8/8/8/8/8/4K3 w - -", "exd8", "what the pawn becomes must be told as =N, =B, =R or =Q"),
            ("8/4P3/8/8/8/8/8/k3K3 w - -", "e8Q", "what the pawn becomes must be told as =N, =B, =R or =Q"),
            ("8/4P3/8/8/8/8/8/k3K3 w - -", "e8=Q++", "the text is not in the form of the PGN standard"),
        ] {
            let (record, mut list) = (lent::fen_read(fen.as_bytes()).unwrap(), Lent::new());
            menkhodur_moves::legal(&record, &mut list).unwrap();
            assert!(lent::san_read_standard(&record, list.as_slice(), text.as_bytes()).is_err(), "{fen} {text}");
            assert_eq!(not_read(&record, list.as_slice(), text.as_bytes()), owed, "{fen} {text}");
        }
    }
}
