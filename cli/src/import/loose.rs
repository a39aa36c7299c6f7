//! `--loose`: what is not in the form of the PGN standard, and has one reading all the same. A text is repaired in its place, byte for byte, so
//! that every offset stays; a move is repaired by itself and then read by the archive over the whole list.

use super::why;
use menkhodur::lent::{self, Record};

/// What is taken, by the names under which it is counted.
pub const KINDS: [&str; 11] =
    ["zeros", "en_passant", "marks", "glyphs", "periods", "brackets", "hyphens", "captures", "double_checks", "promotions", "coordinates"];

// Their places in the list.
const ZEROS: usize = 0;
const EN_PASSANT: usize = 1;
const MARKS: usize = 2;
const GLYPHS: usize = 3;
const PERIODS: usize = 4;
const BRACKETS: usize = 5;
const HYPHENS: usize = 6;
const CAPTURES: usize = 7;
const DOUBLE_CHECKS: usize = 8;
const PROMOTIONS: usize = 9;
const COORDINATES: usize = 10;

/// How often each kind was met.
#[derive(Clone, Copy, Debug, Default, PartialEq, Eq)]
pub struct Counts(pub [u64; KINDS.len()]);

/// Kinds, a bit of each.
type Set = u32;

impl Counts {
    /// One more of each kind of a set.
    pub fn add(&mut self, kinds: Set) {
        for (kind, count) in self.0.iter_mut().enumerate() {
            *count += u64::from(kinds >> kind & 1);
        }
    }

    pub fn add_all(&mut self, other: &Counts) {
        for (count, more) in self.0.iter_mut().zip(other.0) {
            *count += more;
        }
    }
}

/// Judgements of a position, each of which stands alone where a comment could: as characters, and as the one byte of Windows-1252.
const SIGNS: [&[u8]; 15] = [
    b"=",
    b"+=",
    b"=+",
    b"+-",
    b"-+",
    b"+/=",
    b"=/+",
    b"+/-",
    b"-/+",
    "±".as_bytes(),
    "∓".as_bytes(),
    "⩲".as_bytes(),
    "⩱".as_bytes(),
    "∞".as_bytes(),
    b"\xb1",
];

/// The place behind the first such byte from a place on, or the end.
pub fn past(text: &[u8], at: usize, end: u8) -> usize {
    text[at..].iter().position(|byte| *byte == end).map_or(text.len(), |more| at + more + 1)
}

/// Makes `into` the text with what can be repaired in it before it is walked, and counts that.
pub fn repair(text: &[u8], into: &mut Vec<u8>) -> Counts {
    into.clear();
    into.extend(text);
    let (mut counts, mut at) = (Counts::default(), 0);
    while let Some(byte) = into.get(at) {
        at = match byte {
            b'{' => past(into, at, b'}'),
            b';' => past(into, at, b'\n'),
            byte if parts_words(*byte) => at + 1,
            _ => repair_word(into, at, &mut counts),
        };
    }
    counts
}

fn parts_words(byte: u8) -> bool {
    byte.is_ascii_whitespace() || b"{}();".contains(&byte)
}

/// Where the word that begins at a place ends.
fn word_end(text: &[u8], at: usize) -> usize {
    text[at..].iter().position(|byte| parts_words(*byte)).map_or(text.len(), |more| at + more)
}

/// Repairs a word, and tells where to go on.
fn repair_word(text: &mut [u8], at: usize, counts: &mut Counts) -> usize {
    let end = word_end(text, at);
    let word = &text[at..end];
    let kind = match word {
        [b'.', ..] => Some(PERIODS),
        _ if word.iter().all(|byte| b"!?".contains(byte)) => Some(MARKS),
        _ if SIGNS.contains(&word) => Some(GLYPHS),
        _ => None,
    };
    let Some(kind) = kind else {
        let begin = at + number_length(word);
        return repair_move(text, begin, end, counts);
    };
    let blank = if kind == PERIODS { word.iter().take_while(|byte| **byte == b'.').count() } else { word.len() };
    text[at..at + blank].fill(b' ');
    counts.add(1 << kind);
    at + blank
}

/// The bytes of a move number before a move in one word: digits and at least one period.
fn number_length(word: &[u8]) -> usize {
    let digits = word.iter().take_while(|byte| byte.is_ascii_digit()).count();
    let periods = word[digits..].iter().take_while(|byte| **byte == b'.').count();
    if periods == 0 { 0 } else { digits + periods }
}

/// The bytes of marks of check, praise and blame at the front of a text.
fn marks_length(text: &[u8]) -> usize {
    text.iter().take_while(|byte| b"+#!?".contains(byte)).count()
}

/// Repairs what may be a move, and tells where to go on.
fn repair_move(text: &mut [u8], begin: usize, end: usize, counts: &mut Counts) -> usize {
    for zeros in [&b"0-0-0"[..], b"0-0"] {
        let left = text[begin..end].strip_prefix(zeros);
        if left.is_some_and(|left| marks_length(left) == left.len()) && !is_last(text, end) {
            text[begin..begin + zeros.len()].iter_mut().filter(|byte| **byte == b'0').for_each(|zero| *zero = b'O');
            counts.add(1 << ZEROS);
            return end;
        }
    }
    let Some(at) = pawn_goes(&text[begin..end]) else { return end };
    let (file, rank, behind) = (text[begin + at], text[begin + at + 1], begin + at + 2);
    match rank {
        b'3' | b'6' if text[begin] != file => repair_passing(text, behind, end, counts),
        b'1' | b'8' if behind == end => repair_brackets(text, end, counts),
        _ => end,
    }
}

/// Whether only blanks and comments follow. Zeros that end a game may be the result of one that both sides have lost.
fn is_last(text: &[u8], mut at: usize) -> bool {
    while let Some(byte) = text.get(at) {
        at = match byte {
            b'{' => past(text, at, b'}'),
            b';' => past(text, at, b'\n'),
            byte if byte.is_ascii_whitespace() => at + 1,
            _ => return false,
        };
    }
    true
}

/// Where the square stands that a pawn goes to, in a word that begins with a pawn's move.
fn pawn_goes(word: &[u8]) -> Option<usize> {
    let run = word.iter().take_while(|byte| matches!(byte, b'a'..=b'h' | b'1'..=b'8' | b'x' | b'-')).count();
    word.first().filter(|file| (b'a'..=b'h').contains(file)).and_then(|_| why::destination(&word[..run]))
}

/// Takes away the mark of en passant that is behind a pawn's move, in its word or as the next one.
fn repair_passing(text: &mut [u8], from: usize, end: usize, counts: &mut Counts) -> usize {
    let attached = from + marks_length(&text[from..end]);
    let begin = match attached == end {
        true => end + text[end..].iter().take_while(|byte| byte.is_ascii_whitespace()).count(),
        false => attached,
    };
    let until = word_end(text, begin);
    for mark in [&b"e.p."[..], b"ep"] {
        let left = text[begin..until].strip_prefix(mark);
        if left.is_some_and(|left| marks_length(left) == left.len()) {
            text[begin..until].fill(b' ');
            counts.add(1 << EN_PASSANT);
            return until;
        }
    }
    end
}

/// Makes `e8(Q)` `e8=Q`: a man alone is no move, so that the brackets hold no variation.
fn repair_brackets(text: &mut [u8], from: usize, counts: &mut Counts) -> usize {
    let [b'(', man @ (b'N' | b'B' | b'R' | b'Q' | b'n' | b'b' | b'r' | b'q'), b')', behind @ ..] = &text[from..] else { return from };
    let (man, marks) = (man.to_ascii_uppercase(), marks_length(behind));
    if behind.get(marks).is_some_and(|byte| !parts_words(*byte)) {
        return from;
    }
    text[from] = b'=';
    text[from + 1] = man;
    text.copy_within(from + 3..from + 3 + marks, from + 2);
    text[from + 2 + marks] = b' ';
    counts.add(1 << BRACKETS);
    from + 3 + marks
}

/// A move that was read, and what was repaired.
pub struct Read {
    pub number: u16,
    pub kinds: Set,
}

/// A text in the making.
#[derive(Clone)]
struct Draft {
    text: Vec<u8>,
    kinds: Set,
}

impl Draft {
    fn with(&self, kind: usize, text: Vec<u8>) -> Draft {
        Draft { text, kinds: self.kinds | 1 << kind }
    }
}

/// The one move that a text means which the standard's form does not read: all its repairs that are read must be read as one move.
pub fn read(record: &Record, list: &[u16], text: &[u8]) -> Option<Read> {
    let draft = promoted(hyphenless(checked(Draft { text: text.to_vec(), kinds: 0 })));
    let by_standard = |draft: &Draft| Some(Read { number: lent::san_read_standard(record, list, &draft.text).ok()?, kinds: draft.kinds });
    let standard = |draft: &Draft| captures(draft).iter().filter_map(by_standard).collect::<Vec<Read>>();
    let mut readings = standard(&draft).into_iter().chain(coordinates(list, &draft));
    let first = readings.next()?;
    let bishops = bishop(&draft).map_or(vec![], |draft| standard(&draft));
    readings.chain(bishops).all(|other| other.number == first.number).then_some(first)
}

/// `Qxf7++` as `Qxf7+`.
fn checked(draft: Draft) -> Draft {
    match draft.text.strip_suffix(b"++") {
        Some(left) if !left.ends_with(b"+") => draft.with(DOUBLE_CHECKS, [left, b"+"].concat()),
        _ => draft,
    }
}

/// `Ng1-f3` as `Ng1f3`.
fn hyphenless(draft: Draft) -> Draft {
    let between = |five: &[u8]| matches!(five, [b'a'..=b'h', b'1'..=b'8', b'-', b'a'..=b'h', b'1'..=b'8']);
    match draft.text.windows(5).position(between) {
        Some(at) => draft.with(HYPHENS, [&draft.text[..at + 2], &draft.text[at + 3..]].concat()),
        None => draft,
    }
}

/// `e8Q`, `e8q` and `e8=q` as `e8=Q`.
fn promoted(draft: Draft) -> Draft {
    let end = draft.text.len() - draft.text.iter().rev().take_while(|byte| b"+#".contains(byte)).count();
    let (front, marks) = draft.text.split_at(end);
    let (front, man) = match front {
        [front @ .., man] if b"NBRQnbrq".contains(man) => (front, man.to_ascii_uppercase()),
        _ => return draft,
    };
    let front = front.strip_suffix(b"=").unwrap_or(front);
    let made = [front, b"=", &[man], marks].concat();
    if made == draft.text || !front.ends_with(b"1") && !front.ends_with(b"8") { draft } else { draft.with(PROMOTIONS, made) }
}

/// The draft, and with its `x` taken away or put in.
fn captures(draft: &Draft) -> Vec<Draft> {
    let text = &draft.text;
    let other = match text.iter().position(|byte| *byte == b'x') {
        Some(at) => Some([&text[..at], &text[at + 1..]].concat()),
        None => why::destination(text).map(|at| [&text[..at], b"x", &text[at..]].concat()),
    };
    [draft.clone()].into_iter().chain(other.map(|other| draft.with(CAPTURES, other))).collect()
}

/// A listed move that is told in coordinates.
fn coordinates(list: &[u16], draft: &Draft) -> Option<Read> {
    let told: Vec<u8> = draft.text.iter().filter(|byte| !b"+#=".contains(byte)).map(u8::to_ascii_lowercase).collect();
    let is_one = draft.text.first().is_some_and(u8::is_ascii_lowercase) && (4..=5).contains(&told.len());
    let number = is_one.then(|| lent::move_read(&told).ok()).flatten()?;
    list.contains(&number).then_some(Read { number, kinds: draft.kinds | 1 << COORDINATES })
}

/// The bishop's move that someone who writes men in lower case would mean: never taken, but a second reading. A square at the front is the one
/// that the man comes from.
fn bishop(draft: &Draft) -> Option<Draft> {
    let behind = draft.text.strip_prefix(b"b").filter(|behind| !matches!(behind, [b'1'..=b'8', ..]))?;
    Some(Draft { text: [b"B", behind].concat(), kinds: 0 })
}

#[cfg(test)]
mod tests {
    use super::*;
    use menkhodur::Lent;

    /// The kinds of a set or of counts, in words.
    fn names(counts: &Counts) -> Vec<(&'static str, u64)> {
        KINDS.iter().copied().zip(counts.0).filter(|(_, count)| *count > 0).collect()
    }

    #[test]
    fn a_text_is_repaired_in_its_place() {
        for (text, owed, kinds) in [
            ("4. 0-0 0-0-0+ 1-0", "4. O-O O-O-O+ 1-0", &[("zeros", 2)][..]),
            ("4.0-0!? Nf6 *", "4.O-O!? Nf6 *", &[("zeros", 1)]),
            ("(4... 0-0) *", "(4... O-O) *", &[("zeros", 1)]),
            ("exd6 e.p. 1-0", "exd6      1-0", &[("en_passant", 1)]),
            ("exd6e.p. 1-0", "exd6     1-0", &[("en_passant", 1)]),
            ("exd6ep 1-0", "exd6   1-0", &[("en_passant", 1)]),
            ("3.exd6+ ep! {x}", "3.exd6+     {x}", &[("en_passant", 1)]),
            ("exd6\r\ne.p.+ 1-0", "exd6\r\n      1-0", &[("en_passant", 1)]),
            ("ed3 e.p.) e5xd6 e.p.", "ed3     ) e5xd6     ", &[("en_passant", 2)]),
            ("e4 ! e5 !? (d5 ??)", "e4   e5    (d5   )", &[("marks", 3)]),
            ("e4 += e5 +- d4 = d5 ± *", "e4    e5    d4   d5    *", &[("glyphs", 4)]),
            ("e4 {c} ... e5 1 . d4 1 .d5", "e4 {c}     e5 1   d4 1  d5", &[("periods", 3)]),
            ("e8(Q) e1(n)+ bxa8(R)!) *", "e8=Q  e1=N+  bxa8=R! ) *", &[("brackets", 3)]),
        ] {
            let mut into = vec![];
            let counts = repair(text.as_bytes(), &mut into);
            assert_eq!((String::from_utf8_lossy(&into).as_ref(), names(&counts).as_slice()), (owed, kinds), "{text}");
            assert_eq!(into.len(), text.len());
            // What was repaired needs no repair.
            assert_eq!(repair(owed.as_bytes(), &mut into), Counts::default(), "{owed}");
        }
    }

    #[test]
    fn what_has_another_reading_or_is_no_odd_text_stays() {
        for text in [
            // The result of a game that both sides have lost.
            "e4 e5 0-0",
            "e4 e5 0-0 {both}\n; lost\n ",
            "e4 {0-0 ! ... += e.p. e8(Q)} e5 ; 0-0 !\n*",
            "1. e4 e5 2... $1 $14 1-0 0-1 1/2-1/2 *",
            "10-0 0-0x 0-0-1 a0-0",
            "e6 e.p. exd5 e.p. Nxd6 e.p. exd6 e.p.x exd6 epx",
            "e4! N D -- Z0 o-o +/ +/+ - + # ~",
            "e8 (Q) e8(QQ) e8(K) e8(Q)x Re8(Q) e7(Q) e8(",
            "1.e4 1...e5 e4... x.",
        ] {
            let mut into = vec![];
            assert_eq!((repair(text.as_bytes(), &mut into), into.as_slice()), (Counts::default(), text.as_bytes()), "{text}");
        }
    }

    /// What a move text is read as in a position, in coordinates, with the kinds of its repairs.
    fn reading(fen: &str, text: &str) -> Option<(String, Vec<&'static str>)> {
        let (record, mut list) = (lent::fen_read(fen.as_bytes()).unwrap(), Lent::new());
        menkhodur_moves::legal(&record, &mut list).unwrap();
        assert!(lent::san_read_standard(&record, list.as_slice(), text.as_bytes()).is_err(), "{fen} {text}");
        let read = read(&record, list.as_slice(), text.as_bytes())?;
        let (mut room, mut counts) = ([0; 5], Counts::default());
        let length = lent::move_write(read.number.into(), &mut room).unwrap();
        counts.add(read.kinds);
        Some((String::from_utf8_lossy(&room[..length]).into_owned(), names(&counts).iter().map(|kind| kind.0).collect()))
    }

    #[test]
    fn a_move_is_taken_if_it_has_one_reading() {
        let initial = "rnbqkbnr/pppppppp/8/8/8/8/PPPPPPPP/RNBQKBNR w KQkq -";
        let centre = "rnbqkbnr/ppp1pppp/8/3p4/4P3/2N5/PPPP1PPP/R1BQKBNR w KQkq -";
        let last = "3rk3/4P3/8/8/8/8/4p3/3RK3 w - -";
        let castles = "4k3/8/8/8/8/8/8/R3K2R w KQ -";
        for (fen, text, owed, kinds) in [
            (initial, "e2-e4", "e2e4", &["hyphens"][..]),
            (initial, "Ng1-f3", "g1f3", &["hyphens"]),
            (initial, "g1f3", "g1f3", &["coordinates"]),
            (initial, "g1-f3", "g1f3", &["hyphens", "coordinates"]),
            (initial, "Nxf3", "g1f3", &["captures"]),
            (initial, "Nf3++", "g1f3", &["double_checks"]),
            (centre, "ed5", "e4d5", &["captures"]),
            (centre, "Nd5", "c3d5", &["captures"]),
            (centre, "e4-d5", "e4d5", &["hyphens", "captures"]),
            (centre, "e4d5", "e4d5", &["captures"]),
            (last, "exd8Q", "e7d8q", &["promotions"]),
            (last, "exd8=q", "e7d8q", &["promotions"]),
            (last, "exd8n+", "e7d8n", &["promotions"]),
            (last, "ed8R", "e7d8r", &["captures", "promotions"]),
            (last, "e7d8b", "e7d8b", &["captures", "promotions"]),
            (last, "e7xd8Q++", "e7d8q", &["double_checks", "promotions"]),
            (castles, "e1g1", "e1g1", &["coordinates"]),
            (castles, "e1-c1", "e1c1", &["hyphens", "coordinates"]),
            // A pawn's, and no bishop goes there.
            ("4k3/8/8/8/8/2n5/1P6/4K3 w - -", "bc3", "b2c3", &["captures"]),
            // The square that a man comes from, though a bishop of that rank goes there too.
            ("4k3/8/8/8/8/2n5/1P1B4/4K3 w - -", "b2c3", "b2c3", &["captures"]),
        ] {
            let kinds: Vec<&str> = kinds.to_vec();
            assert_eq!(reading(fen, text), Some((owed.to_string(), kinds)), "{fen} {text}");
        }
    }

    #[test]
    fn a_move_is_refused_if_it_has_none_or_two() {
        let last = "3rk3/4P3/8/8/8/8/4p3/3RK3 w - -";
        for (fen, text) in [
            // A pawn takes, or a bishop goes.
            ("4k3/8/8/8/8/2n5/1P1B4/4K3 w - -", "bc3"),
            // Only a bishop goes, and men have capital letters.
            ("4k3/8/8/8/8/8/1P1B4/4K3 w - -", "bc3"),
            ("4k3/8/8/8/8/8/8/1N2KN2 w - -", "Nxd2"),
            (last, "exd8"),
            (last, "exd8="),
            (last, "exd8K"),
            (last, "ed"),
            (last, "e7-d8"),
            (last, "e7d8"),
            (last, "exd8Q+++"),
            ("4k3/8/8/8/8/8/8/4K3 w - -", "Kd2#+"),
            ("4k3/8/8/8/8/8/8/4K3 w - -", "Ke1-"),
            ("4k3/8/8/8/8/8/8/4K3 w - -", "e1-e2-e3"),
            ("4k3/8/8/8/8/8/8/R3K2R w Q -", "e1g1"),
        ] {
            assert_eq!(reading(fen, text), None, "{fen} {text}");
        }
    }
}
