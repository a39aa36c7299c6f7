//! `played`: a move text played from a record, steps through a game's text, and games with their variations. The crate has none of the three. What is owed
//! is put together from judges that other parts have: `movetext.rs` for the walk, `standard.rs` for the reader, the crate's `Board` for the record after a
//! legal move and `after_rule.rs` for any other, the crate's writer for the key. Of a game the crate's `Board` is played along.

use crate::after::{crate_board, owed_legal};
use crate::after_rule;
use crate::clock::Counters;
use crate::fen::owed_text;
use crate::lent::check_writer;
use crate::movetext::{played_from, walk};
use crate::part::{Part, Tally};
use crate::rules::en_passant_rank;
use crate::san_standard::{random_text, Given, SanStandard};
use crate::{records, standard, texts};
use both::abi::{self, Answer, GameStep, Record};
use both::games::{board_of, moves_of, random_move, Positions, STARTS};
use both::numbers::{list_of, move_of, number_of, record_of};
use both::random::Random;
use chess::{Board, BoardBuilder};
use std::rc::Rc;

#[derive(Clone)]
pub enum Input {
    /// A text and an offset in it or past it, and how many bytes the room is longer than the key (shorter if below 0).
    Step(Rc<Given>, Vec<u8>, u64, i64),
    /// A text as one move's.
    Alone(Rc<Given>, Vec<u8>, i64),
    /// A game's text from a position, with the lists that the crate makes.
    Game(Board, Counters, Vec<u8>),
}

// ---- One move

/// The record after a move and its key. Of a move that is legal where the crate takes the record as it stands, the crate decides on both.
fn owed_after(record: &Record, number: u16) -> Result<(Record, String), String> {
    let by_rule = after_rule::owed(record, number as u64).board;
    let key = owed_text(&by_rule).0;
    let whole = |board: &Board| record_of(&BoardBuilder::from(board)).numbers == record.numbers;
    let Some(board) = crate_board(record).filter(whole).filter(|board| moves_of(board).contains(&move_of(number))) else {
        return Ok((by_rule, key));
    };
    let (owed, besides) = owed_legal(&board, Counters::of(record), number);
    // The known exception takes a man besides, which `owed_legal` has given back, and the crate's own text has not.
    let text = if besides { key.clone() } else { en_passant_rank(&board.make_move_new(move_of(number)).to_string()).0 };
    match owed == by_rule && text == key {
        true => Ok((owed, key)),
        false => Err(format!("crate {} {:?}, by the words {} {:?}", records::show(&owed), text, records::show(&by_rule), key)),
    }
}

/// What is owed for the text of one move in a room that is never too short, and the key.
fn owed_played(given: &Given, text: &[u8], start: u64) -> Result<(GameStep, String), String> {
    let blank = GameStep { number: 0, offset: 0, found: 1, start, length: text.len() as u64, played: 0, key: 0, board: given.record };
    let number = match standard::read(&given.record, &given.list, text) {
        Ok(number) => number,
        Err(number) => return Ok((GameStep { number, offset: start, ..blank }, String::new())),
    };
    let (board, key) = owed_after(&given.record, number)?;
    Ok((GameStep { played: number as u64, key: key.len() as u64, board, ..blank }, key))
}

fn owed_step(given: &Given, text: &[u8], offset: u64) -> Result<(GameStep, String), String> {
    let (moves, number, at) = walk(text, offset, 0);
    match moves.iter().find(|(_, _, level)| *level == 0) {
        Some(&(start, length, _)) => owed_played(given, &text[start..start + length], start as u64),
        None => {
            let ended = GameStep { number, offset: at, found: 0, start: 0, length: 0, played: 0, key: 0, board: given.record };
            Ok((ended, String::new()))
        }
    }
}

fn shown(step: &GameStep) -> String {
    let GameStep { number, offset, found, start, length, played, key, board } = step;
    let place = format!("found {}, {} bytes at {}", found, length, start);
    format!("{} at {}: {}, move {}, key of {} bytes, {}", number, offset, place, played, key, records::show(board))
}

/// The call in a room so much longer than the key, with every number of its answer and every byte that it was lent.
fn compare_call(
    given: &Given, text: &[u8], owed: (GameStep, String), off: i64, call: impl FnOnce(&[u8], &[u16], &mut [u8]) -> GameStep,
) -> Result<bool, String> {
    let (step, key) = owed;
    let plays = step.number == 0 && step.found == 1;
    // Without a key the room is measured from 0, so it is lent some bytes that must stay, or none.
    let off = if plays { off } else { off + 90 };
    let short = plays && off < 0;
    let refused = GameStep { number: 7, offset: step.start, played: 0, board: given.record, ..step };
    let (lent, list, mut ours) = (text.to_vec(), given.list.clone(), None);
    let write = |room: &mut [u8]| {
        let got = call(&lent, &list, room);
        ours = Some(got);
        Answer { number: got.number, value: got.key }
    };
    // Nothing is written where none is left, and the number is 0.
    let owed_room = if plays { Ok(key.as_str()) } else { step.number.checked_sub(1).map_or(Ok(""), |_| Err(step.number)) };
    let written = check_writer(owed_room, off, write);
    let owed = if short { refused } else { step };
    match (ours, written) {
        (Some(got), _) if got != owed => Err(format!("owed {} {:?}, ours {}", shown(&owed), key, shown(&got))),
        (_, Err(why)) => Err(why),
        _ if lent != text || list != given.list => Err("the lent text or list was changed".to_string()),
        _ => Ok(owed.number == 0),
    }
}

// ---- A game

/// A position as the crate has it, with its counters.
#[derive(Clone, Copy)]
struct Place {
    board: Board,
    counters: Counters,
}

impl Place {
    fn given(&self) -> Given {
        Given { record: self.counters.on(record_of(&BoardBuilder::from(&self.board))), list: list_of(&self.board) }
    }

    fn after(&self, number: u64) -> Place {
        let next = self.board.make_move_new(move_of(number as u16));
        Place { board: next, counters: self.counters.after(&self.board, &next) }
    }
}

/// Steps from the start, each from where the one before ended and from its record, until none is left or one is refused.
fn compare_main_line(start: Place, text: &[u8], tally: &mut Tally) -> Result<(), String> {
    let (mut place, mut offset) = (start, 0);
    loop {
        let given = place.given();
        let owed = owed_step(&given, text, offset)?;
        let step = owed.0;
        compare_call(&given, text, owed, 0, |text, list, room| abi::game_step(text, offset, given.record, list, room))?;
        tally.count("played: main line", step.number == 0);
        if step.number != 0 || step.found == 0 {
            return Ok(());
        }
        (place, offset) = (place.after(step.played), step.start + step.length);
    }
}

/// What a host keeps that plays what is in brackets too: of each sequence that is open, the positions before and after its last move.
struct Lines(Vec<(Place, Place)>);

impl Lines {
    /// Out of the brackets that were closed and into those that were opened; the position that the next move is then played from.
    fn cross(&mut self, closed: u64, opened: u64) -> Place {
        self.0.truncate(self.0.len().saturating_sub(closed as usize).max(1));
        for _ in 0..opened {
            let (before, _) = self.last();
            self.0.push((before, before));
        }
        self.last().1
    }

    fn last(&self) -> (Place, Place) {
        *self.0.last().expect("the main line is never closed")
    }

    fn play(&mut self, next: Place) {
        let (_, before) = self.last();
        self.0.pop();
        self.0.push((before, next));
    }
}

/// A move text alone, played from a position. None if it is refused.
fn compare_alone(place: Place, text: &[u8], tally: &mut Tally) -> Result<Option<Place>, String> {
    let given = place.given();
    let owed = owed_played(&given, text, 0)?;
    let step = owed.0;
    compare_call(&given, text, owed, 0, |text, list, room| abi::play(text, given.record, list, room))?;
    tally.count("played: variation", step.number == 0);
    Ok((step.number == 0).then(|| place.after(step.played)))
}

/// The whole game by the calls for the next move and for a move text alone. `movetext.rs` says which move's position each move is played from.
fn compare_variations(start: Place, text: &[u8], tally: &mut Tally) -> Result<(), String> {
    let (moves, number, at) = walk(text, 0, 0);
    let (mut places, mut lines): (Vec<Place>, _) = (vec![], Lines(vec![(start, start)]));
    let (mut offset, mut level) = (0, 0);
    for (&(begin, length, deep), from) in moves.iter().zip(played_from(text)) {
        let next = abi::pgn_next(text, offset, level);
        if (next.start, next.length, next.level) != (begin as u64, length as u64, deep as u64) {
            return Err(format!("owed the move at {}, ours {:?}", begin, next));
        }
        let (owed, ours) = (from.map_or(start, |i| places[i]), lines.cross(next.closed, next.opened));
        if owed.given().record != ours.given().record {
            let [owed, ours] = [owed, ours].map(|place| records::show(&place.given().record));
            return Err(format!("the move at {} is played from {}, owed {}", begin, ours, owed));
        }
        let Some(after) = compare_alone(owed, &text[begin..begin + length], tally)? else { return Ok(()) };
        places.push(after);
        lines.play(after);
        (offset, level) = (next.start + next.length, next.level);
    }
    let end = abi::pgn_next(text, offset, level);
    // A bracket that was opened before the last move and is left open has the offset of the place.
    match end.found == 0 && end.number == number && (end.offset == at || number == 21) {
        true => Ok(()),
        false => Err(format!("owed the end {} {}, ours {:?}", number, at, end)),
    }
}

// ---- Inputs

const BETWEEN: [&str; 16] = [
    " ", " ", " ", "\n", " 1. ", " 12... ", " $3 ", " {(} ", " () ", " (() {)} ) ", "; )\n", "\t", " {a comment} ", "\r\n", " ... ", " !",
];

/// A sequence of legal moves as the standard writes them; behind some stand variations, played from the position before.
fn tell(text: &mut String, mut place: Place, level: usize, moves: usize, random: &mut Random) {
    for _ in 0..moves {
        let Some(m) = random_move(&place.board, random) else { return };
        let given = place.given();
        let name = standard::name(&given.record, &given.list, number_of(m) as u64).expect("a legal move has a name");
        let wrong = random.once_in(40);
        *text += *random.pick(if wrong { &BETWEEN } else { &BETWEEN[..13] });
        *text += &name;
        *text += *random.pick(&["", "", "", "", "", "", "+", "#"]);
        while level < 8 && random.once_in(if level == 0 { 6 } else { 3 }) {
            *text += " (";
            tell(text, place, level + 1, random.below(4), random);
            *text += ")";
        }
        place = place.after(number_of(m) as u64);
    }
}

fn random_game(positions: &mut Positions, random: &mut Random) -> Input {
    let board = if random.once_in(3) { board_of(STARTS[0]) } else { positions.next(random) };
    let place = Place { board, counters: Counters::of(&records::counted(records::EMPTY, random)) };
    let mut text = String::new();
    let moves = random.below(30);
    tell(&mut text, place, 0, moves, random);
    text += *random.pick(&["", "", " *", " 1-0 e4", " (", " )", " %"]);
    if random.once_in(3) {
        text = texts::damage(&text, b"Nabcdefgh12345678xO-=Q+(){};$*. %", true, random);
    }
    Input::Game(board, place.counters, text.into_bytes())
}

/// Texts of moves of the list, and others, between what a game's text has besides.
fn random_step(given: &Given, random: &mut Random) -> Vec<u8> {
    let mut text = vec![];
    for _ in 0..1 + random.below(3) {
        text.extend(random.pick(&BETWEEN[..13]).bytes());
        let inside = random.once_in(3);
        text.extend(inside.then_some(b'('));
        text.extend(random_text(given, random));
        text.extend((inside && !random.once_in(12)).then_some(b')'));
    }
    text.extend(random.pick(&["", "", " *", " (", " %"]).bytes());
    text
}

/// A knight that may go to three squares.
fn knight() -> Rc<Given> {
    Rc::new(Given { record: records::with(&[(1, 2)]), list: vec![1_153, 1_025, 705] })
}

pub struct Played {
    givens: SanStandard,
    given: Rc<Given>,
    positions: Positions,
}

impl Played {
    pub fn new() -> Played {
        Played { givens: SanStandard::new(), given: knight(), positions: Positions::default() }
    }
}

/// A place serves so many texts before the next is made.
const TEXTS_A_PLACE: usize = 12;

/// Every legal move of the starts as a game of one move, behind a variation that has it too.
fn first_moves() -> impl Iterator<Item = Input> {
    STARTS.iter().flat_map(|start| {
        let place = Place { board: board_of(start), counters: Counters::said_by(start) };
        let given = place.given();
        given.list.clone().into_iter().map(move |number| {
            let name = standard::name(&given.record, &given.list, number as u64).expect("a legal move has a name");
            Input::Game(place.board, place.counters, format!("1. ({0} (({0}) ) ) {0} ({0})", name).into_bytes())
        })
    })
}

/// Two games that have the same moves at the same levels, and eight levels and nine.
fn games() -> impl Iterator<Item = Input> {
    let texts = [
        "e4 (d4 d5) (c4 e5) e5".to_string(),
        "e4 (d4 d5  c4 e5) e5".to_string(),
        "e4 e5 ((d5) c5 (c6) Nf3) (d6) Nf3 *".to_string(),
        format!("e4 {}e5{} e5", "(".repeat(8), ")".repeat(8)),
        format!("e4 {}e5{} e5", "(".repeat(9), ")".repeat(9)),
    ];
    texts.into_iter().map(|text| Input::Game(board_of(STARTS[0]), Counters::FIRST, text.into_bytes()))
}

impl Part for Played {
    type Input = Input;
    const NAME: &'static str = "played";

    fn fixed(&self) -> Box<dyn Iterator<Item = Input>> {
        let bytes = |text: &str| text.as_bytes().to_vec();
        let short = texts::all(b"Nc3(){}%", 5).enumerate().flat_map(move |(i, text)| {
            [Input::Step(knight(), bytes(&text), (i % 4) as u64, 0), Input::Alone(knight(), bytes(&text), 0)]
        });
        let rooms = ["Nc3", "(Nc3) Na3", "Nc4", "%", ""].into_iter().flat_map(move |text| {
            (-90..=5).flat_map(move |off| [Input::Step(knight(), bytes(text), 0, off), Input::Alone(knight(), bytes(text), off)])
        });
        let wide = [4, 1 << 16, 1 << 32, (1 << 32) + 1, 1 << 63, u64::MAX].map(|offset| Input::Step(knight(), b"Nc3".to_vec(), offset, 0));
        Box::new(short.chain(rooms).chain(wide).chain(games()).chain(first_moves()))
    }

    fn random(&mut self, random: &mut Random) -> Option<Input> {
        if random.once_in(8) {
            return Some(random_game(&mut self.positions, random));
        }
        if random.once_in(TEXTS_A_PLACE) {
            self.given = Rc::new(self.givens.next_given(random));
        }
        let (given, off) = (self.given.clone(), *random.pick(&[0, 0, 0, 0, 1, 60, -1, -2, -90]));
        if random.once_in(2) {
            let text = random_text(&given, random);
            return Some(Input::Alone(given, text, off));
        }
        let text = random_step(&given, random);
        let offset = match random.below(12) {
            0 => random.next() >> random.below(64),
            1..=3 => random.below(text.len() + 2) as u64,
            _ => 0,
        };
        Some(Input::Step(given, text, offset, off))
    }

    fn compare(&self, input: &Input, tally: &mut Tally) -> Result<(), String> {
        match input {
            Input::Step(given, text, offset, off) => {
                let owed = owed_step(given, text, *offset)?;
                let call = |text: &[u8], list: &[u16], room: &mut [u8]| abi::game_step(text, *offset, given.record, list, room);
                let accepted = compare_call(given, text, owed, *off, call)?;
                tally.count("played: step", accepted);
                Ok(())
            }
            Input::Alone(given, text, off) => {
                let owed = owed_played(given, text, 0)?;
                let accepted = compare_call(given, text, owed, *off, |text, list, room| abi::play(text, given.record, list, room))?;
                tally.count("played: alone", accepted);
                Ok(())
            }
            Input::Game(board, counters, text) => {
                let start = Place { board: *board, counters: *counters };
                compare_main_line(start, text, tally)?;
                compare_variations(start, text, tally)
            }
        }
    }

    /// Shorter texts first, then smaller places.
    fn smaller(&self, input: &Input) -> Vec<Input> {
        match input {
            Input::Step(given, text, offset, off) => {
                let cut = texts::cut_lists(text).into_iter().map(|text| Input::Step(given.clone(), text, *offset, *off));
                let nearer = (*offset > 0).then(|| Input::Step(given.clone(), text.clone(), offset / 2, *off));
                cut.chain(nearer).chain(given.smaller().into_iter().map(|given| Input::Step(given, text.clone(), *offset, *off))).collect()
            }
            Input::Alone(given, text, off) => {
                let cut = texts::cut_lists(text).into_iter().map(|text| Input::Alone(given.clone(), text, *off));
                cut.chain(given.smaller().into_iter().map(|given| Input::Alone(given, text.clone(), *off))).collect()
            }
            Input::Game(board, counters, text) => {
                texts::cut_lists(text).into_iter().map(|text| Input::Game(*board, *counters, text)).collect()
            }
        }
    }

    fn show(&self, input: &Input) -> String {
        let place = |given: &Given| format!("{}, list {:?}", records::show(&given.record), given.list);
        match input {
            Input::Step(given, text, offset, _) => format!("{:?} from {} on {}", String::from_utf8_lossy(text), offset, place(given)),
            Input::Alone(given, text, _) => format!("{:?} alone on {}", String::from_utf8_lossy(text), place(given)),
            Input::Game(board, counters, text) => format!("{:?} from {}", String::from_utf8_lossy(text), counters.behind(&board.to_string())),
        }
    }
}
