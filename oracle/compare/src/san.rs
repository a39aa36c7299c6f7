//! `san-legal` and `san-any`: the crate's `ChessMove::from_san` (chess_move.rs), over its `Board` and legal lists, and by
//! `sanlist` over any record and any list.

use crate::part::{Part, Tally};
use crate::{records, texts};
use both::abi::{self, Answer, Position, Record};
use both::games::{board_of, Positions, STARTS};
use both::numbers::{list_of, move_of, number_of, position_of, MOST_MOVE};
use both::random::Random;
use chess::{Board, ChessMove};
use std::rc::Rc;

pub const LETTERS: &[u8] = b"NBRQKabcdefgh12345678x+#=O- e.p09PiZ!?";
/// A piece that may promote and one that may not, two files, two ranks, and every other sign of the grammar.
const SHORT: &[u8] = b"NKae41xQ+O-. ";
const PAPER: [&str; 8] = ["Nc3+?!", "Nc3x", "Nc3", "Nbc3", "O-O", "O-O+", "exd6", "d6"];
const PIECES: [&str; 6] = ["", "N", "B", "R", "Q", "K"];
const PROMOTIONS: [&str; 5] = ["", "N", "B", "R", "Q"];

/// A record and a list, and the crate's reader over them.
pub struct Place {
    pub record: Record,
    pub list: Vec<u16>,
    reader: Reader,
}

enum Reader {
    Legal(Board),
    Any(sanlist::board::Board),
}

impl Place {
    pub fn legal(board: Board) -> Rc<Place> {
        let Position { record, list, .. } = position_of(&board);
        Rc::new(Place { record, list, reader: Reader::Legal(board) })
    }

    /// The same with any counters, which no answer depends on (order 12).
    pub fn counted(board: Board, random: &Random) -> Rc<Place> {
        let Position { record, list, .. } = position_of(&board);
        Rc::new(Place { record: records::counted(record, random), list, reader: Reader::Legal(board) })
    }

    pub fn any(record: Record, list: Vec<u16>) -> Rc<Place> {
        let reader = Reader::Any(sanlist::board::Board::new(record.numbers, &list));
        Rc::new(Place { record, list, reader })
    }

    /// The crate's answer: a move or `InvalidSanMove`, and nothing else.
    pub fn crate_reads(&self, text: &str) -> Result<Option<u16>, String> {
        match &self.reader {
            Reader::Legal(board) => match ChessMove::from_san(board, text) {
                Ok(m) => Ok(Some(number_of(m))),
                Err(chess::Error::InvalidSanMove) => Ok(None),
                Err(error) => Err(format!("the crate gives {:?}", error)),
            },
            Reader::Any(board) => match sanlist::read(board, text) {
                Ok(number) => Ok(Some(number)),
                Err(sanlist::error::Error::InvalidSanMove) => Ok(None),
                Err(error) => Err(format!("the crate gives {:?}", error)),
            },
        }
    }

    /// Places with entries left out or squares emptied; a legal list is then no longer legal, but the reader is the same.
    pub fn smaller(&self) -> Vec<Rc<Place>> {
        let lists = texts::cut_lists(&self.list).into_iter().map(|l| Place::any(self.record, l));
        let records = records::smaller(&self.record).into_iter().map(|r| Place::any(r, self.list.clone()));
        lists.chain(records).collect()
    }

    pub fn show(&self) -> String {
        format!("{}, list {:?}", records::show(&self.record), self.list)
    }
}

/// A place and a text.
pub type Input = (Rc<Place>, String);

fn compare(label: &'static str, (place, text): &Input, tally: &mut Tally) -> Result<(), String> {
    let owed = match place.crate_reads(text)? {
        Some(number) => Answer { number: 0, value: number as u64 },
        None => Answer { number: 4, value: 0 },
    };
    let (list, lent) = (place.list.clone(), text.clone());
    let ours = abi::san_read(place.record, &list, lent.as_bytes());
    if ours != owed || list != place.list || lent != *text {
        return Err(format!("crate {:?}, ours {:?}", owed, ours));
    }
    tally.count(label, owed.number == 0);
    Ok(())
}

/// Shorter texts first, then smaller places.
fn smaller((place, text): &Input) -> Vec<Input> {
    let cut = texts::cuts(text).into_iter().map(|t| (place.clone(), t));
    cut.chain(place.smaller().into_iter().map(|p| (p, text.clone()))).collect()
}

fn show((place, text): &Input) -> String {
    format!("{:?} on {}", text, place.show())
}

/// The `n`-th of the source parts: none, a file, a rank, both.
fn source_part(n: usize) -> String {
    let file = if n % 9 == 0 { String::new() } else { ((b'a' + (n % 9) as u8 - 1) as char).to_string() };
    let rank = if n / 9 == 0 { String::new() } else { (n / 9).to_string() };
    file + &rank
}

/// Every well-formed text without check marks: 622,080 of them.
fn well_formed() -> impl Iterator<Item = String> {
    (0..6 * 81 * 2 * 64 * 5 * 2usize).map(|n| {
        let (piece, n) = (PIECES[n % 6], n / 6);
        let (source, n) = (source_part(n % 81), n / 81);
        let (takes, n) = (["", "x"][n % 2], n / 2);
        let (square, n) = (chess::ALL_SQUARES[n % 64], n / 64);
        format!("{}{}{}{}{}{}", piece, source, takes, square, PROMOTIONS[n % 5], ["", " e.p."][n / 5])
    })
}

fn on(place: Rc<Place>, all: impl Iterator<Item = String>) -> impl Iterator<Item = Input> {
    all.map(move |text| (place.clone(), text))
}

/// A text for one of the listed moves, most parts right and some wrong.
pub fn near_text(place: &Place, random: &mut Random) -> String {
    let number = match place.list.is_empty() || random.once_in(12) {
        true => random.below(MOST_MOVE as usize + 1) as u16,
        false => *random.pick(&place.list),
    };
    let m = move_of(number);
    let (from, to) = (number as usize % 64, number as usize / 64 % 64);
    let kind = (place.record.numbers[from] as usize + 5) % 6;
    let piece = if random.once_in(16) { *random.pick(&PIECES) } else { PIECES[kind] };
    let source = match random.below(6) {
        0 => source_part(random.below(81)),
        1 => source_part(from % 8 + 1),
        2 => source_part(9 * (from / 8 + 1)),
        3 => source_part(from % 8 + 1 + 9 * (from / 8 + 1)),
        _ => String::new(),
    };
    let occupied = place.record.numbers[to] != 0 || kind == 0 && from % 8 != to % 8;
    let takes = if occupied != random.once_in(8) { "x" } else { "" };
    let promotion = match (m.get_promotion(), random.once_in(12)) {
        (Some(p), false) => p.to_string(chess::Color::White),
        (None, false) => String::new(),
        (_, true) => random.pick(&PROMOTIONS).to_string(),
    };
    let check = *random.pick(&["", "", "", "+", "#"]);
    let tail = *random.pick(&["", "", "", "", " e.p.", " e.p. ", "!?", "=Q", "x"]);
    format!("{}{}{}{}{}{}{}", piece, source, takes, m.get_dest(), promotion, check, tail)
}

pub fn random_text(place: &Place, random: &mut Random) -> String {
    let length = texts::length_near(&[12, 16, 256], random);
    match random.below(10) {
        0 => random.pick(&["O-O", "O-O-O", "O-O+", "O-O-", "0-0", "O-O-O-O", "o-o"]).to_string(),
        1 => texts::random(length, LETTERS, random),
        2 => texts::random_wide(length, LETTERS, random),
        3 => texts::random(length, &texts::ASCII, random),
        4 | 5 => texts::damage(&near_text(place, random), LETTERS, true, random),
        _ => near_text(place, random),
    }
}

/// A place serves so many texts before the next is made.
const TEXTS_A_PLACE: usize = 24;

/// Places of the positions of random games.
pub struct LegalPlaces {
    positions: Positions,
    place: Rc<Place>,
}

impl LegalPlaces {
    pub fn new() -> LegalPlaces {
        LegalPlaces { positions: Positions::default(), place: Place::legal(Board::default()) }
    }

    pub fn next(&mut self, random: &mut Random) -> Rc<Place> {
        if random.once_in(TEXTS_A_PLACE) {
            self.place = Place::counted(self.positions.next(random), random);
        }
        self.place.clone()
    }
}

pub struct SanLegal(LegalPlaces);

impl SanLegal {
    pub fn new() -> SanLegal {
        SanLegal(LegalPlaces::new())
    }
}

impl Part for SanLegal {
    type Input = Input;
    const NAME: &'static str = "san-legal";

    fn fixed(&self) -> Box<dyn Iterator<Item = Input>> {
        let legal = |fen: &str| Place::legal(board_of(fen));
        // Castling both ways, promotions with captures, and a pawn that may be taken in passing.
        let short = [STARTS[1], STARTS[16], STARTS[11]].map(|fen| on(legal(fen), texts::all(SHORT, 5)));
        let whole = [STARTS[1], STARTS[8]].map(|fen| on(legal(fen), well_formed()));
        Box::new(short.into_iter().flatten().chain(whole.into_iter().flatten()))
    }

    fn random(&mut self, random: &mut Random) -> Option<Input> {
        let place = self.0.next(random);
        let text = random_text(&place, random);
        Some((place, text))
    }

    fn compare(&self, input: &Input, tally: &mut Tally) -> Result<(), String> {
        compare("san-legal", input, tally)
    }

    fn smaller(&self, input: &Input) -> Vec<Input> {
        smaller(input)
    }

    fn show(&self, input: &Input) -> String {
        show(input)
    }
}

/// A list of any length up to 255 in which few squares recur, so that several entries fit one text.
fn random_list(random: &mut Random) -> Vec<u16> {
    let length = match random.below(4) {
        0 => *random.pick(&[0, 1, 253, 254, 255]),
        1 => random.below(256),
        _ => 1 + random.below(12),
    };
    let few = 1 + random.below(6);
    let sources: Vec<usize> = (0..few).map(|_| random.below(64)).collect();
    let targets: Vec<usize> = (0..few).map(|_| random.below(64)).collect();
    let entry = |random: &mut Random| {
        let promotion = if random.once_in(3) { random.below(7) } else { 0 };
        match random.below(16) {
            0 => random.below(MOST_MOVE as usize + 1) as u16,
            1 => *random.pick(&[388, 132, 4028, 3772]),
            _ => (*random.pick(&sources) + 64 * random.pick(&targets) + 4096 * promotion) as u16,
        }
    };
    (0..length).map(|_| entry(random)).collect()
}

/// Any list, now and then a legal one of another position, and a record with men on most of its sources.
pub fn random_place(positions: &mut Positions, random: &mut Random) -> Rc<Place> {
    let mut record = records::random(random);
    let list = if random.once_in(8) { list_of(&positions.next(random)) } else { random_list(random) };
    let kinds = [1 + random.below(12) as u8, 1 + random.below(12) as u8];
    for number in &list {
        if random.below(4) > 0 {
            record.numbers[*number as usize % 64] = *random.pick(&kinds);
        }
    }
    Place::any(record, list)
}

/// The places of the paper's rows, and some where several entries fit.
pub fn paper_places() -> Vec<Rc<Place>> {
    let place = |men: &[(usize, u8)], list: &[u16]| Place::any(records::with(men), list.to_vec());
    vec![
        place(&[(1, 2)], &[1153]),
        place(&[(1, 2), (18, 7)], &[1153]),
        place(&[(1, 2), (12, 2)], &[1153, 1164]),
        place(&[(4, 4)], &[388]),
        place(&[(4, 4)], &[388, 388]),
        place(&[(36, 1)], &[2788]),
        place(&[(4, 6), (12, 1), (52, 1)], &[388, 132, 796, 1804, 24_372, 20_276]),
    ]
}

pub struct SanAny {
    positions: Positions,
    place: Rc<Place>,
}

impl SanAny {
    pub fn new() -> SanAny {
        SanAny { positions: Positions::default(), place: Place::any(records::EMPTY, vec![]) }
    }
}

impl Part for SanAny {
    type Input = Input;
    const NAME: &'static str = "san-any";

    fn fixed(&self) -> Box<dyn Iterator<Item = Input>> {
        let rows = paper_places().into_iter().flat_map(|p| on(p, PAPER.iter().map(|t| t.to_string())));
        let short = paper_places().into_iter().flat_map(|p| on(p, texts::all(SHORT, 4)));
        let whole = paper_places().into_iter().skip(6).flat_map(|p| on(p, well_formed()));
        Box::new(rows.chain(short).chain(whole))
    }

    fn random(&mut self, random: &mut Random) -> Option<Input> {
        if random.once_in(TEXTS_A_PLACE) {
            self.place = random_place(&mut self.positions, random);
        }
        let text = random_text(&self.place, random);
        Some((self.place.clone(), text))
    }

    fn compare(&self, input: &Input, tally: &mut Tally) -> Result<(), String> {
        compare("san-any", input, tally)
    }

    fn smaller(&self, input: &Input) -> Vec<Input> {
        smaller(input)
    }

    fn show(&self, input: &Input) -> String {
        show(input)
    }
}
