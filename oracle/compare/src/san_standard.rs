//! `san-standard`: our reader and our namer of the PGN standard's form (document 02, order 6), which the crate has not,
//! against `standard.rs`, on any record, list and bytes.

use crate::lent::check_writer;
use crate::part::{Part, Tally};
use crate::san::{paper_places, random_place, Place, LETTERS};
use crate::{records, standard, texts};
use both::abi::{self, Answer, Record, NUMBERS};
use both::games::{board_of, Positions, STARTS};
use both::numbers::MOST_MOVE;
use both::random::Random;
use std::rc::Rc;

/// A record and a list, in range or not.
#[derive(Clone)]
pub struct Given {
    pub record: Record,
    pub list: Vec<u16>,
}

#[derive(Clone)]
pub enum Input {
    Read(Rc<Given>, Vec<u8>),
    /// The move, and how many bytes the lent room is longer than the name owed.
    Name(Rc<Given>, u64, i64),
}

/// A piece that may promote and one that may not, two files, two ranks, and every other sign of the form.
const SHORT: &[u8] = b"NKae81xQ=+O-";
const PIECES: [&str; 6] = ["", "N", "B", "R", "Q", "K"];
const PROMOTIONS: [&str; 6] = ["", "=N", "=B", "=R", "=Q", "Q"];
const PAPER: [&str; 14] = [
    "e8=Q", "e8Q", "exd6", "d6", "xd6", "exd6 e.p.", "O-O", "O-O+", "O-O#", "O-O-O+", "Nc3x", "Nc3", "Nbc3", "Nc3+?!",
];

impl Given {
    pub fn of(place: &Place) -> Rc<Given> {
        Rc::new(Given { record: place.record, list: place.list.clone() })
    }

    pub(crate) fn smaller(&self) -> Vec<Rc<Given>> {
        let lists = texts::cut_lists(&self.list).into_iter().map(|list| Given { list, ..self.clone() });
        let smaller = records::smaller(&self.record).into_iter().map(|record| Given { record, ..self.clone() });
        lists.chain(smaller).map(Rc::new).collect()
    }
}

fn compare_read(given: &Given, text: &[u8], tally: &mut Tally) -> Result<(), String> {
    let owed = match standard::read(&given.record, &given.list, text) {
        Ok(number) => Answer { number: 0, value: number as u64 },
        Err(number) => Answer { number, value: 0 },
    };
    let (list, lent) = (given.list.clone(), text.to_vec());
    let ours = abi::san_read_standard(given.record, &list, &lent);
    if ours != owed || list != given.list || lent != text {
        return Err(format!("owed {:?}, ours {:?}", owed, ours));
    }
    tally.count("standard read", owed.number == 0);
    Ok(())
}

fn compare_name(given: &Given, number: u64, off: i64, tally: &mut Tally) -> Result<(), String> {
    let owed = standard::name(&given.record, &given.list, number);
    if owed == Err(8) {
        if let Some(text) = standard::any_text(&given.record, &given.list, number as u16) {
            return Err(format!("{:?} is read as the move, and no candidate", text));
        }
    }
    let list = given.list.clone();
    // Without a name the room is measured from 0, so it is lent some bytes that must stay.
    let off = if owed.is_ok() { off } else { off + 9 };
    let name = owed.as_deref().map_err(|number| *number);
    let written = check_writer(name, off, |room| abi::san_name_standard(given.record, &list, number, room))?;
    if list != given.list {
        return Err("the lent list was changed".to_string());
    }
    tally.count("standard name", written);
    Ok(())
}

/// The source part of a square: bit 0 for the file, bit 1 for the rank.
fn source_part(square: usize, parts: usize) -> String {
    let name = chess::ALL_SQUARES[square].to_string();
    ["", &name[..1], &name[1..], &name][parts].to_string()
}

/// Every text of letter, source part (none, file, rank or both of one of eight squares), `x`, square, promotion and mate
/// sign; one of the promotions lacks its `=`.
fn well_formed() -> impl Iterator<Item = String> {
    (0..6 * 32 * 2 * 64 * 6 * 2usize).map(|n| {
        let (piece, n) = (PIECES[n % 6], n / 6);
        let (source, n) = (source_part([0, 4, 12, 27, 36, 52, 60, 63][n % 8], n / 8 % 4), n / 32);
        let (takes, n) = (["", "x"][n % 2], n / 2);
        let (square, n) = (chess::ALL_SQUARES[n % 64], n / 64);
        format!("{}{}{}{}{}{}", piece, source, takes, square, PROMOTIONS[n % 6], ["", "#"][n / 6])
    })
}

fn on(given: Rc<Given>, all: impl Iterator<Item = String>) -> impl Iterator<Item = Input> {
    all.map(move |text| Input::Read(given.clone(), text.into_bytes()))
}

/// Every move as the only entry, with every kind of man on its source, onto an empty and an occupied square; sides change.
fn single_entries() -> impl Iterator<Item = Input> {
    (0..=MOST_MOVE).flat_map(|number| {
        (0..14u8).map(move |n| {
            let mut record = records::with(&[(number as usize / 64 % 64, n / 7), (number as usize % 64, n % 7)]);
            record.numbers[64] = (number / 512 % 2) as u8;
            Input::Name(Rc::new(Given { record, list: vec![number] }), number as u64, 0)
        })
    })
}

/// Two men of one kind that reach one square, from every two squares.
fn two_men() -> impl Iterator<Item = Input> {
    (0..64 * 64 * 6usize).map(|n| {
        let (a, b, kind) = (n % 64, n / 64 % 64, (n / 4096) as u8 + 1);
        let list = [a, b].map(|from| (from + 64 * 28) as u16).to_vec();
        let number = list[0] as u64;
        Input::Name(Rc::new(Given { record: records::with(&[(a, kind), (b, kind)]), list }), number, 0)
    })
}

/// A man with one of its kind on its file and one on its rank, all to one square, with every promotion, in rooms around the
/// name's length; so come the longest names, of eight bytes.
fn three_men() -> impl Iterator<Item = Input> {
    (0..64 * 6 * 7 * 2usize).flat_map(|n| {
        let (from, kind, promotion, there) = (n % 64, (n / 64 % 6) as u8 + 1, n / 384 % 7, (n / 2688) as u8);
        let sources = [from, (from + 8) % 64, from / 8 * 8 + (from + 1) % 8];
        let to = (from + 27) % 64;
        let list = sources.map(|source| (source + 64 * to + 4096 * promotion) as u16).to_vec();
        let record = records::with(&[(to, there), (sources[0], kind), (sources[1], kind), (sources[2], kind)]);
        let (number, given) = (list[0] as u64, Rc::new(Given { record, list }));
        [0, 1, -1, -8].map(|off| Input::Name(given.clone(), number, off))
    })
}

/// Each entry of the paper's places, and moves that are not listed, in rooms around the name's length.
fn paper_names() -> impl Iterator<Item = Input> {
    paper_places().into_iter().flat_map(|place| {
        let numbers = place.list.clone().into_iter().map(u64::from).chain([0, 70_000]);
        let given = Given::of(&place);
        numbers.flat_map(move |number| (-9..=3).map(move |off| (number, off))).map(move |(number, off)| {
            Input::Name(given.clone(), number, off)
        })
    })
}

/// A text for one of the listed moves, most parts right and some wrong.
fn near_text(given: &Given, random: &mut Random) -> String {
    let number = match given.list.is_empty() || random.once_in(16) {
        true => random.below(MOST_MOVE as usize + 1),
        false => *random.pick(&given.list) as usize,
    };
    let (from, to, promotion) = (number % 64, number / 64 % 64, number / 4096);
    let kind = (given.record.numbers[from] as usize + 5) % 6;
    let piece = if random.once_in(16) { *random.pick(&PIECES) } else { PIECES[kind] };
    let source = if random.once_in(12) { random.below(64) } else { from };
    let captures = given.record.numbers[to] != 0 || kind == 0 && from % 8 != to % 8;
    // A pawn's capture mostly has its file, since nothing else is taken.
    let parts = if kind == 0 && captures && !random.once_in(6) { 1 } else { *random.pick(&[0, 0, 0, 1, 2, 3]) };
    let takes = if captures != random.once_in(8) { "x" } else { "" };
    let letter = match promotion {
        2..=5 if !random.once_in(8) => PROMOTIONS[promotion - 1],
        0 if !random.once_in(12) => "",
        _ => random.pick(&["", "=N", "=B", "=R", "=Q", "=K", "=P", "=", "N", "Q"]),
    };
    let check = random.pick(&["", "", "", "", "", "", "", "+", "+", "+", "#", "#", "++", "+#", "!"]);
    let tail = if random.once_in(8) { *random.pick(&[" e.p.", " ", "x", "?"]) } else { "" };
    format!("{}{}{}{}{}{}{}", piece, source_part(source, parts), takes, chess::ALL_SQUARES[to], letter, check, tail)
}

pub fn random_text(given: &Given, random: &mut Random) -> Vec<u8> {
    let length = texts::length_near(&[9, 16, 256], random);
    let text = match random.below(12) {
        0 => {
            let castling = random.pick(&["O-O", "O-O-O", "O-O", "O-O-O", "O-O-", "0-0", "O-O-O-O", "o-o", "KO-O", "xO-O"]);
            format!("{}{}", castling, random.pick(&["", "", "+", "#", "++", " ", "=Q"]))
        }
        1 => texts::random(length, LETTERS, random),
        2 => texts::random_wide(length, LETTERS, random),
        3 => return (0..length).map(|_| random.next() as u8).collect(),
        4 => texts::damage(&near_text(given, random), LETTERS, true, random),
        _ => near_text(given, random),
    };
    text.into_bytes()
}

/// Seldom a record number, a counter, an entry or the length of the list goes out of range, or two of them.
pub fn put_out_of_range(given: &mut Given, random: &mut Random) {
    if random.once_in(2) {
        let at = random.below(NUMBERS);
        given.record.numbers[at] = [13, 2, 4, 4, 9][at.saturating_sub(63)] + random.pick(&[0, 0, 1, 100]);
    } else if random.once_in(2) {
        records::put_counter_out_of_range(&mut given.record, random);
    }
    if random.once_in(2) && !given.list.is_empty() {
        let at = random.below(given.list.len());
        given.list[at] = *random.pick(&[MOST_MOVE + 1, MOST_MOVE + 2, 32_768, u16::MAX]);
    } else if random.once_in(2) {
        given.list.resize(256 + random.below(3), 796);
    }
}

/// A place serves so many texts before the next is made.
const TEXTS_A_PLACE: usize = 24;

pub struct SanStandard {
    positions: Positions,
    given: Rc<Given>,
}

impl SanStandard {
    pub fn new() -> SanStandard {
        let given = Rc::new(Given { record: records::EMPTY, list: vec![] });
        SanStandard { positions: Positions::default(), given }
    }

    pub(crate) fn next_given(&mut self, random: &mut Random) -> Given {
        let place = match random.once_in(2) {
            true => random_place(&mut self.positions, random),
            false => Place::counted(self.positions.next(random), random),
        };
        let mut given = Given { record: place.record, list: place.list.clone() };
        if random.once_in(24) {
            put_out_of_range(&mut given, random);
        }
        // An entry listed twice is no entry alone, and castling listed twice is still taken.
        if random.once_in(12) && !given.list.is_empty() && given.list.len() < 255 {
            given.list.push(*random.pick(&given.list));
        }
        given
    }
}

impl Part for SanStandard {
    type Input = Input;
    const NAME: &'static str = "san-standard";

    fn fixed(&self) -> Box<dyn Iterator<Item = Input>> {
        let legal = |fen: &str| Given::of(&Place::legal(board_of(fen)));
        let paper = || paper_places().into_iter().map(|place| Given::of(&place));
        let rows = paper().flat_map(|given| on(given, PAPER.iter().map(|text| text.to_string())));
        let short = paper().flat_map(|given| on(given, texts::all(SHORT, 4)));
        // Castling both ways with promotions and captures on it.
        let longer = on(legal(STARTS[16]), texts::all(SHORT, 5));
        let whole = [STARTS[1], STARTS[8], STARTS[11]].map(|fen| on(legal(fen), well_formed()));
        let read = rows.chain(short).chain(longer).chain(whole.into_iter().flatten());
        Box::new(read.chain(paper_names()).chain(two_men()).chain(three_men()).chain(single_entries()))
    }

    fn random(&mut self, random: &mut Random) -> Option<Input> {
        if random.once_in(TEXTS_A_PLACE) {
            self.given = Rc::new(self.next_given(random));
        }
        let given = self.given.clone();
        if !random.once_in(3) {
            let text = random_text(&given, random);
            return Some(Input::Read(given, text));
        }
        let number = match random.below(24) {
            0 => random.below(MOST_MOVE as usize + 1) as u64,
            1 => random.next(),
            _ if given.list.is_empty() => 0,
            _ => *random.pick(&given.list) as u64,
        };
        Some(Input::Name(given, number, *random.pick(&[0, 0, 0, 0, 1, 9, -1, -2, -9])))
    }

    fn compare(&self, input: &Input, tally: &mut Tally) -> Result<(), String> {
        match input {
            Input::Read(given, text) => compare_read(given, text, tally),
            Input::Name(given, number, off) => compare_name(given, *number, *off, tally),
        }
    }

    /// Shorter texts first, then smaller places.
    fn smaller(&self, input: &Input) -> Vec<Input> {
        match input {
            Input::Read(given, text) => {
                let cut = texts::cut_lists(text).into_iter().map(|text| Input::Read(given.clone(), text));
                cut.chain(given.smaller().into_iter().map(|given| Input::Read(given, text.clone()))).collect()
            }
            Input::Name(given, number, off) => {
                given.smaller().into_iter().map(|given| Input::Name(given, *number, *off)).collect()
            }
        }
    }

    fn show(&self, input: &Input) -> String {
        let place = |given: &Given| format!("{}, list {:?}", records::show(&given.record), given.list);
        match input {
            Input::Read(given, text) => format!("{:?} on {}", String::from_utf8_lossy(text), place(given)),
            Input::Name(given, number, _) => format!("move {} on {}", number, place(given)),
        }
    }
}
