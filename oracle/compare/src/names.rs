//! `names`: our namer, which the crate has not, judged by the crate's reader. The name owed is the first of document 01's
//! candidates that the crate reads as the move; where none is owed, the crate must read no text of the grammar as it.

use crate::lent::check_writer;
use crate::part::{Part, Tally};
use crate::records;
use crate::san::{paper_places, random_place, LegalPlaces, Place};
use both::abi;
use both::games::Positions;
use both::numbers::MOST_MOVE;
use both::random::Random;
use std::rc::Rc;

#[derive(Clone)]
pub struct Input {
    place: Rc<Place>,
    number: u64,
    /// How many bytes the lent room is longer than the name owed.
    off: i64,
}

impl Input {
    /// A move of a place, to be named into a room of exactly its length.
    pub fn new(place: Rc<Place>, number: u64) -> Input {
        Input { place, number, off: 0 }
    }
}

const PIECES: [&str; 6] = ["", "N", "B", "R", "Q", "K"];
const PROMOTIONS: [&str; 5] = ["", "N", "B", "R", "Q"];
const NOT_LISTED: u64 = 11;
const NO_NAME: u64 = 8;

/// A move number taken apart, with what stands on its squares.
struct Shape {
    number: u16,
    from: usize,
    to: usize,
    /// 0 to 5 from pawn to king; none on an empty source.
    kind: Option<usize>,
    promotion: usize,
    occupied: bool,
    /// The castling text, if the move goes from e to g or c on the back rank of the side to move and does not promote.
    castling: Option<&'static str>,
}

fn file_letter(square: usize) -> char {
    (b'a' + (square % 8) as u8) as char
}

fn rank_digit(square: usize) -> char {
    (b'1' + (square / 8) as u8) as char
}

impl Shape {
    fn of(record: &abi::Record, number: u16) -> Shape {
        let (from, to) = (number as usize % 64, number as usize / 64 % 64);
        let back = 56 * record.numbers[64] as usize;
        let castling = match number as usize {
            n if n == back + 4 + 64 * (back + 6) => Some("O-O"),
            n if n == back + 4 + 64 * (back + 2) => Some("O-O-O"),
            _ => None,
        };
        let kind = (record.numbers[from] as usize).checked_sub(1).map(|code| code % 6);
        Shape { number, from, to, kind, promotion: number as usize / 4096, occupied: record.numbers[to] != 0, castling }
    }

    /// Source part: bit 0 for the file, bit 1 for the rank.
    fn text(&self, piece: &str, source: usize, takes: bool, promotion: &str, mark: bool) -> String {
        let mut text = String::with_capacity(11);
        text.push_str(piece);
        if source & 1 != 0 {
            text.push(file_letter(self.from));
        }
        if source & 2 != 0 {
            text.push(rank_digit(self.from));
        }
        if takes {
            text.push('x');
        }
        text.extend([file_letter(self.to), rank_digit(self.to)]);
        text.push_str(promotion);
        text.push_str(if mark { " e.p." } else { "" });
        text
    }

    /// The texts that document 01 lets the namer try, in its order.
    fn candidates(&self) -> Vec<String> {
        let castling = self.castling.map(str::to_string);
        let Some(kind) = self.kind else { return castling.into_iter().collect() };
        let crossing = kind == 0 && self.from % 8 != self.to % 8;
        let sources: &[usize] = if crossing { &[1, 3] } else { &[0, 1, 2, 3] };
        let promotion = PROMOTIONS.get(self.promotion.saturating_sub(1)).filter(|_| self.promotion > 1).unwrap_or(&"");
        let takes = self.occupied || crossing;
        let plain = sources.iter().map(|s| self.text(PIECES[kind], *s, takes, promotion, crossing && !self.occupied));
        match castling {
            Some(text) if kind == 5 => std::iter::once(text).chain(plain).collect(),
            _ => plain.chain(castling).collect(),
        }
    }

    /// Texts of every form that could name the move: its source parts, either sign, either mark, and its letters, or
    /// every letter where it has none.
    fn all_texts(&self) -> Vec<String> {
        let pieces = self.kind.map_or(&PIECES[..], |kind| &PIECES[kind..=kind]);
        let promotions = match self.promotion {
            1 | 6 => &PROMOTIONS[..],
            0 => &PROMOTIONS[..1],
            code => &PROMOTIONS[code - 1..code],
        };
        let mut texts = vec!["O-O".to_string(), "O-O-O".to_string()];
        for piece in pieces {
            for promotion in promotions {
                texts.extend((0..16).map(|n| self.text(piece, n % 4, n & 4 != 0, promotion, n & 8 != 0)));
            }
        }
        texts
    }
}

/// The name owed, or the number of the refusal.
pub fn owed(place: &Place, number: u64) -> Result<Result<String, u64>, String> {
    let Some(listed) = place.list.iter().find(|n| **n as u64 == number) else { return Ok(Err(NOT_LISTED)) };
    let shape = Shape::of(&place.record, *listed);
    for text in shape.candidates() {
        if place.crate_reads(&text)? == Some(shape.number) {
            return Ok(Ok(text));
        }
    }
    for text in shape.all_texts() {
        if place.crate_reads(&text)? == Some(shape.number) {
            return Err(format!("the crate reads {:?} as the move, and no candidate", text));
        }
    }
    Ok(Err(NO_NAME))
}

pub struct Names {
    legal: LegalPlaces,
    positions: Positions,
}

impl Names {
    pub fn new() -> Names {
        Names { legal: LegalPlaces::new(), positions: Positions::default() }
    }
}

/// Every move as the only entry, with every kind of man on its source, onto an empty and an occupied square, either side.
fn single_entries() -> impl Iterator<Item = Input> {
    (0..=MOST_MOVE).flat_map(|number| {
        (0..7 * 2 * 2).map(move |n| {
            let mut record = records::with(&[(number as usize / 64 % 64, n / 7 % 2), (number as usize % 64, n % 7)]);
            record.numbers[64] = n / 14;
            Input { place: Place::any(record, vec![number]), number: number as u64, off: 0 }
        })
    })
}

/// Two men of one kind that reach one square, from every two squares.
fn two_men() -> impl Iterator<Item = Input> {
    (0..64 * 64 * 6usize).map(|n| {
        let (a, b, kind, to) = (n % 64, n / 64 % 64, (n / 4096) as u8 + 1, 28);
        let list = vec![(a + 64 * to) as u16, (b + 64 * to) as u16];
        let number = list[0] as u64;
        Input { place: Place::any(records::with(&[(a, kind), (b, kind)]), list), number, off: 0 }
    })
}

impl Part for Names {
    type Input = Input;
    const NAME: &'static str = "names";

    fn fixed(&self) -> Box<dyn Iterator<Item = Input>> {
        let paper = paper_places().into_iter().flat_map(|place| {
            let entries = place.list.clone().into_iter().map(u64::from).chain([0, 70_000]);
            entries.flat_map(move |number| {
                let place = place.clone();
                (-12..=3).map(move |off| Input { place: place.clone(), number, off })
            })
        });
        Box::new(paper.chain(two_men()).chain(single_entries()))
    }

    fn random(&mut self, random: &mut Random) -> Option<Input> {
        let place = match random.once_in(3) {
            true => random_place(&mut self.positions, random),
            false => self.legal.next(random),
        };
        let number = match random.below(24) {
            0 => random.below(MOST_MOVE as usize + 1) as u64,
            1 => random.next(),
            _ if place.list.is_empty() => 0,
            _ => *random.pick(&place.list) as u64,
        };
        Some(Input { place, number, off: *random.pick(&[0, 0, 0, 0, 1, 9, -1, -2, -12]) })
    }

    fn compare(&self, input: &Input, tally: &mut Tally) -> Result<(), String> {
        let place = &input.place;
        let owed = owed(place, input.number)?;
        let list = place.list.clone();
        let name = owed.as_ref().map(|t| t.as_str()).map_err(|n| *n);
        // Without a name the room is measured from 0, so it is lent some bytes that must stay.
        let off = if name.is_ok() { input.off } else { input.off + 12 };
        let written = check_writer(name, off, |room| abi::san_name(place.record, &list, input.number, room))?;
        if list != place.list {
            return Err("the lent list was changed".to_string());
        }
        tally.count("names", written);
        Ok(())
    }

    fn smaller(&self, input: &Input) -> Vec<Input> {
        input.place.smaller().into_iter().map(|place| Input { place, ..*input }).collect()
    }

    fn show(&self, input: &Input) -> String {
        format!("move {} on {}", input.number, input.place.show())
    }
}
