//! `page`: the crate's `BoardBuilder::from_str` on each line of a text, as in `fen-read`, beside one call for all of them.

use crate::fen::{four_tokens, good_fen, owed_read, LETTERS};
use crate::part::{Part, Tally};
use crate::texts;
use both::abi::{self, Answer, NUMBERS};
use both::games::Positions;
use both::random::Random;

const GUARD: usize = 16;
const FILL: u8 = 0xA5;
const FILL_NUMBER: u64 = 0xA5A5_A5A5_A5A5_A5A5;

/// Bytes and numbers that a line has: the record's without its counters, which a page does not keep (order 12).
pub(crate) const RECORD: usize = NUMBERS;
pub(crate) const TOLD: usize = 2;

/// A newline, what ends a token, and bytes that are good in one token or in none.
const SHORT: &[u8] = b"\n w8x";
const THREE_LINES: &str = "K w - -\n9 w - -\nk b - h6";

/// A text, and how many bytes and numbers its rooms are longer than its lines need (shorter if below 0).
#[derive(Clone)]
pub struct Lent {
    pub text: String,
    bytes: i64,
    numbers: i64,
}

#[derive(Default)]
pub struct FenPage(Positions);

pub(crate) fn lent(text: String, bytes: i64, numbers: i64) -> Lent {
    Lent { text, bytes, numbers }
}

impl Lent {
    /// With something of the text left out, or a room that fits.
    pub(crate) fn smaller(&self) -> Vec<Lent> {
        let cut = texts::cuts(&self.text).into_iter().map(|text| Lent { text, ..*self });
        let exact = [lent(self.text.clone(), 0, self.numbers), lent(self.text.clone(), self.bytes, 0)];
        cut.chain(exact.into_iter().filter(|one| (one.bytes, one.numbers) != (self.bytes, self.numbers))).collect()
    }

    pub(crate) fn show(&self) -> String {
        format!("{:?}, rooms longer by {} and {}", self.text, self.bytes, self.numbers)
    }
}

/// What stands between newlines and at both ends; nothing behind the last newline is no line.
pub fn lines(text: &str) -> Vec<&str> {
    let mut lines: Vec<&str> = text.split('\n').collect();
    if lines.last() == Some(&"") {
        lines.pop();
    }
    lines
}

/// Records and numbers of all lines, by the crate and the rules of refused texts.
pub(crate) fn owed(lines: &[&str]) -> Result<(Vec<u8>, Vec<u64>), String> {
    let (mut records, mut numbers) = (vec![], vec![]);
    for line in lines {
        let (fen, _) = owed_read(line)?;
        records.extend(fen.board.numbers);
        numbers.extend([fen.number, fen.offset]);
    }
    Ok((records, numbers))
}

/// The front of a room that is lent between guards holds what is owed, and all else what it held before.
fn holds<T: PartialEq>(room: &[T], owed: &[T], fill: T) -> bool {
    let (front, behind) = (&room[..GUARD], &room[GUARD + owed.len()..]);
    front.iter().chain(behind).all(|one| *one == fill) && room[GUARD..].starts_with(owed)
}

/// Both rooms of a page, lent between guards and full of noise.
pub(crate) struct Rooms {
    records: Vec<u8>,
    numbers: Vec<u64>,
}

impl Rooms {
    pub(crate) fn new(given: &Lent, lines: usize) -> Rooms {
        let room = |needed: usize, off: i64| (needed as i64 + off).max(0) as usize;
        let (bytes, told) = (room(RECORD * lines, given.bytes), room(TOLD * lines, given.numbers));
        Rooms { records: vec![FILL; bytes + 2 * GUARD], numbers: vec![FILL_NUMBER; told + 2 * GUARD] }
    }

    pub(crate) fn bytes(&self) -> usize {
        self.records.len() - 2 * GUARD
    }

    pub(crate) fn told(&self) -> usize {
        self.numbers.len() - 2 * GUARD
    }

    pub(crate) fn fit(&self, lines: usize) -> bool {
        self.bytes() >= RECORD * lines && self.told() >= TOLD * lines
    }

    /// The two rooms themselves.
    pub(crate) fn lend(&mut self) -> (&mut [u8], &mut [u64]) {
        let (bytes, told) = (self.bytes(), self.told());
        (&mut self.records[GUARD..GUARD + bytes], &mut self.numbers[GUARD..GUARD + told])
    }

    /// What they hold after a call that answered this number.
    pub(crate) fn check(&self, number: u64, owed_records: &[u8], owed_numbers: &[u64]) -> Result<(), String> {
        let (bytes, told) = (self.bytes(), self.told());
        if !holds(&self.numbers, owed_numbers, FILL_NUMBER) {
            let shown = &self.numbers[GUARD..GUARD + told];
            return Err(format!("rooms of {} and {}: owed {:?}, the numbers are {:?}", bytes, told, (number, owed_numbers), shown));
        }
        match holds(&self.records, owed_records, FILL) {
            true => Ok(()),
            false => Err(format!("rooms of {} and {}: owed {}, and a byte is not as owed", bytes, told, number)),
        }
    }
}

fn long_pages() -> impl Iterator<Item = Lent> {
    let counts = [15usize, 16, 17, 31, 32, 33, 63, 64, 65, 255, 256, 257, 4_095, 4_096, 4_097, 65_535, 65_536, 65_537];
    counts.into_iter().flat_map(|n| {
        let long = "P".repeat(n);
        let among = format!("\n{} w - -\n\n x - -", long);
        let texts = ["\n".repeat(n), "8\n".repeat(n), format!("{}\n", long), long, among];
        texts.into_iter().flat_map(|text| [lent(text.clone(), 0, 0), lent(text.clone(), -1, 0), lent(text, 5, -1)])
    })
}

/// A line of any kind: good, damaged, four random tokens, or any bytes, newlines among them.
pub(crate) fn any_line(positions: &mut Positions, random: &mut Random) -> String {
    let length = random.below(40);
    match random.below(8) {
        0 => texts::random(length, &texts::ASCII, random),
        1 => texts::random_wide(length, LETTERS, random),
        2 => four_tokens(random),
        3 | 4 => texts::damage(&good_fen(positions, random), LETTERS, true, random),
        _ => good_fen(positions, random),
    }
}

/// How much longer than needed a room is, for so much a line.
fn any_off(line: i64, random: &mut Random) -> i64 {
    match random.below(8) {
        0 => -1,
        1 => -line,
        2 => -(random.below(12 * line as usize) as i64),
        3 => line,
        4 => random.below(3 * line as usize) as i64,
        _ => 0,
    }
}

/// Rooms that fit are wanted most: only they show what was read.
pub(crate) fn any_rooms(text: String, random: &mut Random) -> Lent {
    let (bytes, numbers) = match random.once_in(3) {
        true => (any_off(RECORD as i64, random), any_off(TOLD as i64, random)),
        false => (random.below(70) as i64, random.below(3) as i64),
    };
    lent(text, bytes, numbers)
}

/// Three lines in every two rooms up to a line more than they need.
pub(crate) fn in_every_room(three_lines: &'static str) -> impl Iterator<Item = Lent> {
    (-205..=70).flat_map(move |bytes| (-6..=3).map(move |numbers| lent(three_lines.to_string(), bytes, numbers)))
}

/// Every short text, in rooms that fit and that are one short.
pub(crate) fn short_pages() -> impl Iterator<Item = Lent> {
    texts::all(SHORT, 6).flat_map(|t| [lent(t.clone(), 0, 0), lent(t.clone(), -1, 1), lent(t, 68, -1)])
}

impl Part for FenPage {
    type Input = Lent;
    const NAME: &'static str = "page";

    fn fixed(&self) -> Box<dyn Iterator<Item = Lent>> {
        let bytes = texts::all(&texts::ASCII, 1).map(|t| lent(format!("{t} w - -\n {t} - -\n\n{t}"), 3, 1));
        Box::new(in_every_room(THREE_LINES).chain(short_pages()).chain(bytes).chain(long_pages()))
    }

    fn random(&mut self, random: &mut Random) -> Option<Lent> {
        let mut text = String::new();
        for _ in 0..random.below(10) {
            text += &any_line(&mut self.0, random);
            text += if random.once_in(12) { "\n\n" } else { "\n" };
        }
        match random.below(4) {
            0 => drop(text.pop()),
            1 => text += &any_line(&mut self.0, random),
            _ => (),
        }
        Some(any_rooms(text, random))
    }

    fn compare(&self, given: &Lent, tally: &mut Tally) -> Result<(), String> {
        let lines = lines(&given.text);
        let (mut owed_records, mut owed_numbers) = owed(&lines)?;
        let mut rooms = Rooms::new(given, lines.len());
        let fits = rooms.fit(lines.len());
        if !fits {
            owed_records.clear();
            owed_numbers.clear();
        }
        let answer = Answer { number: if fits { 0 } else { 7 }, value: lines.len() as u64 };
        let text = given.text.clone();
        let (records, numbers) = rooms.lend();
        let ours = abi::fen_page(text.as_bytes(), records, numbers);
        if ours != answer {
            return Err(format!("rooms of {} and {}: owed {:?}, ours {:?}", rooms.bytes(), rooms.told(), answer, ours));
        }
        rooms.check(answer.number, &owed_records, &owed_numbers)?;
        if text != given.text {
            return Err("the text is not as it was lent".to_string());
        }
        tally.count("page", fits);
        for number in owed_numbers.iter().step_by(TOLD) {
            tally.count("page: lines", *number == 0);
        }
        Ok(())
    }

    fn smaller(&self, given: &Lent) -> Vec<Lent> {
        given.smaller()
    }

    fn show(&self, given: &Lent) -> String {
        given.show()
    }
}

#[test]
fn a_last_line_needs_a_byte() {
    assert_eq!(lines(""), [""; 0]);
    assert_eq!(lines("8"), ["8"]);
    assert_eq!(lines("8\n"), ["8"]);
    assert_eq!(lines("\n"), [""]);
    assert_eq!(lines("8\n\n8\r"), ["8", "", "8\r"]);
}
