//! SAN as the PGN standard writes it (its section 8.2.3), by the words of document 02, order 6: a reader and a namer, which
//! the crate has not. A text is taken apart from its end, since its last square is the destination.

use crate::records::counters_in_range;
use both::abi::Record;
use both::numbers::MOST_MOVE;

/// Refusals, by the numbers of document 01.
pub const NO_MOVE: u64 = 4;
const BAD_RECORD: u64 = 5;
const BAD_LIST: u64 = 6;
const NO_NAME: u64 = 8;
const NOT_LISTED: u64 = 11;

const MOST_ENTRIES: usize = 255;
const PAWN: u8 = 1;
const KING: u8 = 6;

/// A move number taken apart, with the man on its source.
#[derive(Clone, Copy)]
struct Entry {
    from: u8,
    to: u8,
    /// 0 for none, 2 to 5 for the four letters; 1 and 6, a pawn and a king, have no letter.
    promotion: u8,
    /// 1 to 6 from pawn to king, of either colour; 0 on an empty source.
    kind: u8,
    occupied: bool,
}

impl Entry {
    fn of(record: &Record, number: u16) -> Entry {
        let (from, to) = ((number % 64) as u8, (number / 64 % 64) as u8);
        let code = record.numbers[from as usize];
        let kind = if code > 6 { code - 6 } else { code };
        Entry { from, to, promotion: (number / 4096) as u8, kind, occupied: record.numbers[to as usize] != 0 }
    }

    /// "The destination is occupied or a pawn changes files."
    fn captures(&self) -> bool {
        self.occupied || self.crosses()
    }

    /// Whether a pawn changes files.
    fn crosses(&self) -> bool {
        self.kind == PAWN && self.from % 8 != self.to % 8
    }

    /// The text of a king's castling: from e to g or c on the back rank of the side to move, without promotion.
    fn castling(&self, record: &Record) -> Option<&'static str> {
        let back = if record.numbers[64] == 0 { 0 } else { 56 };
        match (self.kind, self.promotion, self.from.wrapping_sub(back), self.to.wrapping_sub(back)) {
            (KING, 0, 4, 6) => Some("O-O"),
            (KING, 0, 4, 2) => Some("O-O-O"),
            _ => None,
        }
    }
}

/// What a text that is not castling says.
struct Said {
    kind: u8,
    file: Option<u8>,
    rank: Option<u8>,
    takes: bool,
    to: u8,
    promotion: u8,
}

fn piece_of(letter: u8) -> Option<u8> {
    Some(match letter {
        b'N' => 2,
        b'B' => 3,
        b'R' => 4,
        b'Q' => 5,
        b'K' => KING,
        _ => return None,
    })
}

/// A text without its check mark: piece letter, file, rank, `x`, square, `=` and a letter; all but the square may be absent.
fn take_apart(text: &[u8]) -> Option<Said> {
    let (text, promotion) = match text {
        [front @ .., b'=', letter] => (front, piece_of(*letter).filter(|piece| *piece != KING)?),
        _ => (text, 0),
    };
    let [text @ .., file @ b'a'..=b'h', rank @ b'1'..=b'8'] = text else { return None };
    let to = file - b'a' + 8 * (rank - b'1');
    let (text, takes) = match text {
        [front @ .., b'x'] => (front, true),
        _ => (text, false),
    };
    let (text, rank) = match text {
        [front @ .., rank @ b'1'..=b'8'] => (front, Some(rank - b'1')),
        _ => (text, None),
    };
    let (text, file) = match text {
        [front @ .., file @ b'a'..=b'h'] => (front, Some(file - b'a')),
        _ => (text, None),
    };
    let kind = match text {
        [] => PAWN,
        [letter] => piece_of(*letter)?,
        _ => return None,
    };
    Some(Said { kind, file, rank, takes, to, promotion })
}

impl Said {
    /// Piece kind on the source, file, rank, destination and promotion agree.
    fn fits(&self, entry: &Entry) -> bool {
        self.kind == entry.kind
            && self.file.is_none_or(|file| file == entry.from % 8)
            && self.rank.is_none_or(|rank| rank == entry.from / 8)
            && self.to == entry.to
            && self.promotion == entry.promotion
    }

    /// `x` stands exactly where it must, and a pawn's has its file.
    fn sign_is_right(&self, entry: &Entry) -> bool {
        self.takes == entry.captures() && !(self.takes && self.kind == PAWN && self.file.is_none())
    }
}

/// The move of a text. Castling is taken if it is listed, once or more; any other move if one entry alone fits.
fn resolve(record: &Record, list: &[u16], text: &[u8]) -> Option<u16> {
    let text = match text {
        [front @ .., b'+' | b'#'] => front,
        _ => text,
    };
    if text == b"O-O" || text == b"O-O-O" {
        let says = |number: &&u16| Entry::of(record, **number).castling(record).is_some_and(|c| c.as_bytes() == text);
        return list.iter().find(says).copied();
    }
    let said = take_apart(text)?;
    let mut fitting = list.iter().filter(|number| said.fits(&Entry::of(record, **number)));
    match (fitting.next(), fitting.next()) {
        (Some(number), None) if said.sign_is_right(&Entry::of(record, *number)) => Some(*number),
        _ => None,
    }
}

/// 5 or 6, in document 01's order, for a record or a list that is out of range.
pub fn check_ranges(record: &Record, list: &[u16]) -> Result<(), u64> {
    let r = &record.numbers;
    let good = r[..64].iter().all(|code| *code <= 12) && r[64] <= 1 && r[65] <= 3 && r[66] <= 3 && r[67] <= 8;
    if !good || !counters_in_range(record) {
        return Err(BAD_RECORD);
    }
    if list.len() > MOST_ENTRIES || list.iter().any(|number| *number > MOST_MOVE) {
        return Err(BAD_LIST);
    }
    Ok(())
}

/// The move of a text, or the number of the refusal.
pub fn read(record: &Record, list: &[u16], text: &[u8]) -> Result<u16, u64> {
    check_ranges(record, list)?;
    resolve(record, list, text).ok_or(NO_MOVE)
}

fn text_of(entry: &Entry, letter: &str, (file, rank): (bool, bool), takes: bool, promotion: &str) -> String {
    let file_letter = |square: u8| (b'a' + square % 8) as char;
    let rank_digit = |square: u8| (b'1' + square / 8) as char;
    let mut text = letter.to_string();
    text.extend(file.then(|| file_letter(entry.from)));
    text.extend(rank.then(|| rank_digit(entry.from)));
    text.extend(takes.then_some('x'));
    text.extend([file_letter(entry.to), rank_digit(entry.to)]);
    text + promotion
}

const LETTERS: [&str; 6] = ["", "N", "B", "R", "Q", "K"];
const PROMOTIONS: [&str; 5] = ["", "=N", "=B", "=R", "=Q"];
const SOURCES: [(bool, bool); 4] = [(false, false), (true, false), (false, true), (true, true)];

/// The texts that the namer tries, in document 01's order, without a mark of en passant, and castling only for a king.
fn candidates(record: &Record, entry: &Entry) -> Vec<String> {
    let promotion = match entry.promotion {
        0 => "",
        code @ 2..=5 => PROMOTIONS[code as usize - 1],
        _ => return vec![],
    };
    let Some(letter) = (entry.kind as usize).checked_sub(1).map(|kind| LETTERS[kind]) else { return vec![] };
    let sources: &[(bool, bool)] = if entry.crosses() { &[(true, false), (true, true)] } else { &SOURCES };
    let plain = sources.iter().map(|source| text_of(entry, letter, *source, entry.captures(), promotion));
    entry.castling(record).map(str::to_string).into_iter().chain(plain).collect()
}

/// The name of a listed move, or the number of the refusal.
pub fn name(record: &Record, list: &[u16], number: u64) -> Result<String, u64> {
    check_ranges(record, list)?;
    let number = list.iter().copied().find(|listed| u64::from(*listed) == number).ok_or(NOT_LISTED)?;
    let resolves = |text: &String| resolve(record, list, text.as_bytes()) == Some(number);
    candidates(record, &Entry::of(record, number)).into_iter().find(resolves).ok_or(NO_NAME)
}

/// Some text of the form that is read as the move, whatever its parts. A move without a name must have none.
pub fn any_text(record: &Record, list: &[u16], number: u16) -> Option<String> {
    let entry = Entry::of(record, number);
    let mut texts = vec!["O-O".to_string(), "O-O-O".to_string()];
    for letter in (0..6).filter(|kind| entry.kind == 0 || entry.kind == kind + 1).map(|kind| LETTERS[kind as usize]) {
        for n in 0..40 {
            texts.push(text_of(&entry, letter, SOURCES[n % 4], n % 8 > 3, PROMOTIONS[n / 8]));
        }
    }
    texts.into_iter().find(|text| resolve(record, list, text.as_bytes()) == Some(number))
}

#[cfg(test)]
mod tests {
    use super::*;
    use crate::records;

    #[track_caller]
    fn reads(men: &[(usize, u8)], list: &[u16], text: &str, owed: Option<u16>) {
        assert_eq!(read(&records::with(men), list, text.as_bytes()), owed.ok_or(NO_MOVE), "{}", text);
    }

    /// The examples in the words of the order.
    #[test]
    fn by_the_order() {
        reads(&[(52, 1)], &[52 + 64 * 60 + 4096 * 5], "e8=Q", Some(24_372));
        reads(&[(52, 1)], &[52 + 64 * 60 + 4096 * 5], "e8Q", None);
        reads(&[(36, 1)], &[36 + 64 * 43], "exd6", Some(2788));
        for text in ["d6", "xd6", "5xd6", "exd6 e.p.", "ed6"] {
            reads(&[(36, 1)], &[36 + 64 * 43], text, None);
        }
        reads(&[(4, 12)], &[388, 388], "O-O+", Some(388));
        reads(&[(4, 4)], &[388], "O-O", None);
        reads(&[(4, 6)], &[388], "Kg1", Some(388));
        reads(&[(1, 2), (18, 7)], &[1153], "Nxc3", Some(1153));
        for text in ["Nc3x", "Nc3", "Nxc3+#", "Nxc3!", "nxc3", ""] {
            reads(&[(1, 2), (18, 7)], &[1153], text, None);
        }
    }

    #[test]
    fn names_in_order() {
        let named = |men: &[(usize, u8)], list: &[u16]| name(&records::with(men), list, list[0].into());
        assert_eq!(named(&[(4, 6)], &[388]).as_deref(), Ok("O-O"));
        assert_eq!(named(&[(4, 4)], &[388]).as_deref(), Ok("Rg1"));
        assert_eq!(named(&[(1, 2), (12, 2)], &[1153, 1164]).as_deref(), Ok("Nbc3"));
        assert_eq!(named(&[(36, 1)], &[2788]).as_deref(), Ok("exd6"));
        assert_eq!(named(&[(36, 1)], &[2788, 2788]), Err(NO_NAME));
        assert_eq!(named(&[(52, 1)], &[24_372]).as_deref(), Ok("e8=Q"));
    }
}
