//! `lists`: what a host may do with its list (document 02, order 13), on both forms of SAN. A list is shuffled, thinned or filled. The answers on
//! both lists are judged, by the crate's reader or by `standard.rs`; and those on the second list are held against what the judge gave on the first,
//! by the order's own sentences.

use crate::lent::check_writer;
use crate::part::{Part, Tally};
use crate::san::{self, paper_places, random_place, Place};
use crate::san_standard::{self, put_out_of_range, Given};
use crate::{names, records, standard, texts};
use both::abi::{self, Answer, Record};
use both::games::{board_of, Positions, STARTS};
use both::numbers::MOST_MOVE;
use both::random::Random;
use std::rc::Rc;

const MOST_ENTRIES: usize = 255;

#[derive(Clone, Copy, PartialEq, Eq, Debug)]
enum Form {
    Paper,
    Standard,
}

const FORMS: [Form; 2] = [Form::Paper, Form::Standard];

#[derive(Clone)]
enum Asked {
    Read(Vec<u8>),
    /// The move, and how many bytes the lent room is longer than the name owed.
    Name(u64, i64),
}

/// A record and a list, and the crate's reader over them, where both are in range.
#[derive(Clone)]
struct Side {
    record: Record,
    list: Vec<u16>,
    judge: Result<Rc<Place>, u64>,
}

#[derive(Clone)]
pub struct Input {
    form: Form,
    asked: Asked,
    given: Side,
    other: Side,
}

/// How the second list stands to the first, by how often each entry is in them.
#[derive(Clone, Copy, PartialEq, Eq, Debug)]
enum Change {
    Shuffled,
    Thinned,
    Filled,
    Else,
}

/// Whether a sorted list is another with some entries left out.
fn is_within(fewer: &[u16], more: &[u16]) -> bool {
    let mut rest = more.iter();
    fewer.iter().all(|entry| rest.any(|other| other == entry))
}

fn change(given: &[u16], other: &[u16]) -> Change {
    let [mut given, mut other] = [given.to_vec(), other.to_vec()];
    given.sort_unstable();
    other.sort_unstable();
    match (given == other, is_within(&other, &given), is_within(&given, &other)) {
        (true, _, _) => Change::Shuffled,
        (_, true, _) => Change::Thinned,
        (_, _, true) => Change::Filled,
        _ => Change::Else,
    }
}

impl Side {
    fn new(record: Record, list: Vec<u16>) -> Side {
        let judge = standard::check_ranges(&record, &list).map(|_| Place::any(record, list.clone()));
        Side { record, list, judge }
    }

    fn of(place: &Rc<Place>) -> Side {
        Side { record: place.record, list: place.list.clone(), judge: Ok(place.clone()) }
    }

    /// The judge's answer to a text.
    fn owed_read(&self, form: Form, text: &[u8]) -> Result<Answer, String> {
        let read = match (form, &self.judge) {
            (Form::Standard, _) => standard::read(&self.record, &self.list, text),
            (Form::Paper, Err(number)) => Err(*number),
            (Form::Paper, Ok(place)) => {
                let text = std::str::from_utf8(text).map_err(|_| "the crate takes only UTF-8".to_string())?;
                place.crate_reads(text)?.ok_or(standard::NO_MOVE)
            }
        };
        Ok(read.map_or_else(|number| Answer { number, value: 0 }, |m| Answer { number: 0, value: m as u64 }))
    }

    fn owed_name(&self, form: Form, number: u64) -> Result<Result<String, u64>, String> {
        match (form, &self.judge) {
            (Form::Standard, _) => Ok(standard::name(&self.record, &self.list, number)),
            (Form::Paper, Err(refused)) => Ok(Err(*refused)),
            (Form::Paper, Ok(place)) => names::owed(place, number),
        }
    }

    /// Our answer, which must leave what is lent as it is.
    fn read(&self, form: Form, text: &[u8]) -> Result<Answer, String> {
        let (list, lent) = (self.list.clone(), text.to_vec());
        let answer = match form {
            Form::Paper => abi::san_read(self.record, &list, &lent),
            Form::Standard => abi::san_read_standard(self.record, &list, &lent),
        };
        if list != self.list || lent != text {
            return Err("what was lent was changed".to_string());
        }
        Ok(answer)
    }

    /// Whether our answer and every byte of the room are as owed, and whether a name was written.
    fn check_name(&self, form: Form, number: u64, owed: &Result<String, u64>, off: i64) -> Result<bool, String> {
        // Without a name the room is measured from 0, so it is lent some bytes that must stay.
        let off = if owed.is_ok() { off } else { off + 12 };
        let name = owed.as_deref().map_err(|refused| *refused);
        check_writer(name, off, |room| match form {
            Form::Paper => abi::san_name(self.record, &self.list, number, room),
            Form::Standard => abi::san_name_standard(self.record, &self.list, number, room),
        })
    }

    fn lists(&self, number: u64) -> bool {
        self.list.iter().any(|entry| u64::from(*entry) == number)
    }

    /// With another list.
    fn with(&self, list: Vec<u16>) -> Side {
        Side::new(self.record, list)
    }
}

const REFUSED_MOVE: Answer = Answer { number: standard::NO_MOVE, value: 0 };

/// The order's sentences of a text: the answer owed on the first list, and ours on the second.
fn keeps_read(change: Change, owed: Answer, other: &Side, ours: Answer) -> bool {
    match change {
        Change::Shuffled => ours == owed,
        Change::Thinned if owed.number == 0 && other.lists(owed.value) => ours == owed,
        Change::Filled if owed.number == 0 && other.judge.is_ok() => ours == owed || ours == REFUSED_MOVE,
        _ => true,
    }
}

fn compare_read(input: &Input, text: &[u8], tally: &mut Tally) -> Result<(), String> {
    let Input { form, given, other, .. } = input;
    let (owed, then) = (given.owed_read(*form, text)?, other.owed_read(*form, text)?);
    let (ours, after) = (given.read(*form, text)?, other.read(*form, text)?);
    if ours != owed || after != then {
        return Err(format!("owed {:?}, then {:?}; ours {:?}, then {:?}", owed, then, ours, after));
    }
    let change = change(&given.list, &other.list);
    if !keeps_read(change, owed, other, after) {
        return Err(format!("{:?}: owed {:?}, ours on the second list {:?}", change, owed, after));
    }
    tally.count(label(*form, true, change), after.number == 0);
    Ok(())
}

const CASTLING: [&str; 2] = ["O-O", "O-O-O"];

/// What holds of names when entries go: the old name is still read as the move, the new one has no more bytes, but for document 01's last resort.
fn keeps_name(form: Form, number: u64, owed: &str, then: &Result<String, u64>, other: &Side) -> Result<(), String> {
    let back = other.read(form, owed.as_bytes())?;
    if back != (Answer { number: 0, value: number }) {
        return Err(format!("the name {:?} on the first list is {:?} on the second", owed, back));
    }
    match then {
        Ok(name) if name.len() <= owed.len() || form == Form::Paper && CASTLING.contains(&owed) => Ok(()),
        _ => Err(format!("the name was {:?}, then {:?}", owed, then)),
    }
}

fn compare_name(input: &Input, number: u64, off: i64, tally: &mut Tally) -> Result<(), String> {
    let Input { form, given, other, .. } = input;
    let (owed, then) = (given.owed_name(*form, number)?, other.owed_name(*form, number)?);
    given.check_name(*form, number, &owed, off)?;
    let written = other.check_name(*form, number, &then, off).map_err(|why| format!("on the second list: {}", why))?;
    let change = change(&given.list, &other.list);
    match (change, &owed) {
        (Change::Shuffled, _) => other.check_name(*form, number, &owed, off).map(|_| ())?,
        (Change::Thinned, Ok(name)) if other.lists(number) => keeps_name(*form, number, name, &then, other)?,
        (Change::Filled, Err(8)) if other.judge.is_ok() && then != Err(8) => {
            return Err(format!("no name on the first list, then {:?}", then));
        }
        _ => (),
    }
    tally.count(label(*form, false, change), written);
    Ok(())
}

fn label(form: Form, read: bool, change: Change) -> &'static str {
    let labels = match change {
        Change::Shuffled => ["shuffled, read", "shuffled, name", "shuffled std, read", "shuffled std, name"],
        Change::Thinned => ["thinned, read", "thinned, name", "thinned std, read", "thinned std, name"],
        Change::Filled => ["filled, read", "filled, name", "filled std, read", "filled std, name"],
        Change::Else => ["otherwise, read", "otherwise, name", "otherwise std, read", "otherwise std, name"],
    };
    labels[2 * (form == Form::Standard) as usize + !read as usize]
}

// ---- other lists

fn mixed(list: &[u16], random: &mut Random) -> Vec<u16> {
    let mut other = list.to_vec();
    for at in (1..other.len()).rev() {
        other.swap(at, random.below(at + 1));
    }
    other
}

fn shuffled(list: &[u16], random: &mut Random) -> Vec<u16> {
    let mut other = list.to_vec();
    match random.below(8) {
        0 => other.reverse(),
        1 => other.sort_unstable(),
        2 => other.sort_unstable_by(|a, b| b.cmp(a)),
        3 if !other.is_empty() => other.rotate_left(1),
        4 if other.len() > 1 => other.swap(0, list.len() - 1),
        _ => return mixed(list, random),
    }
    other
}

/// Entries left out, one or many; the move that must stay mostly stays.
fn thinned(list: &[u16], stays: Option<u16>, random: &mut Random) -> Vec<u16> {
    let stays = stays.filter(|_| !random.once_in(24));
    let one = random.below(list.len().max(1));
    let gone = *random.pick(&[0, 1, 3, 5, 7, 8]);
    let mut kept = |at: usize| if gone == 0 { at != one } else { random.below(8) >= gone };
    let mut other: Vec<u16> = (0..list.len()).filter(|at| kept(*at)).map(|at| list[at]).collect();
    if let Some(entry) = stays.filter(|entry| list.contains(entry) && !other.contains(entry)) {
        other.insert(random.below(other.len() + 1), entry);
    }
    if random.once_in(3) { mixed(&other, random) } else { other }
}

/// An entry of any kind: listed already, to the square of the move asked for, or any.
fn another(list: &[u16], asked: Option<u16>, random: &mut Random) -> u16 {
    match (random.below(4), asked) {
        (0, _) if !list.is_empty() => *random.pick(list),
        (1, Some(entry)) => entry / 64 * 64 + random.below(64) as u16,
        (2, Some(_)) if !list.is_empty() => list[random.below(list.len())] / 64 * 64 + random.below(64) as u16,
        _ => random.below(MOST_MOVE as usize + 1) as u16,
    }
}

/// Entries put in anywhere, one or many, now and then just up to the most or one past it.
fn filled(list: &[u16], asked: Option<u16>, random: &mut Random) -> Vec<u16> {
    let free = MOST_ENTRIES.saturating_sub(list.len());
    let more = match random.below(16) {
        0 => free,
        1 => free + 1,
        2 => random.below(free + 1),
        3..=5 => 2 + random.below(6),
        _ => 1,
    };
    let mut other = list.to_vec();
    for _ in 0..more {
        let entry = another(list, asked, random);
        other.insert(random.below(other.len() + 1), entry);
    }
    other
}

// ---- inputs

const TEXTS: [&str; 16] = [
    "Nc3", "Nbc3", "Nec3", "N1c3", "Nb1c3", "Nxc3", "O-O", "O-O-O", "O-O+", "exd6", "d6", "exd6 e.p.", "e4", "e8=Q", "e8Q", "Kg1",
];

/// The other lists of every run: turned round, each entry left out or listed once more, one to the same square, and the last move.
fn others(list: &[u16]) -> Vec<Vec<u16>> {
    let turned: Vec<u16> = list.iter().rev().copied().collect();
    let without = |at: usize| [&list[..at], &list[at + 1..]].concat();
    let with = |entry: u16| [&[entry], list].concat();
    let rest = (0..list.len()).flat_map(|at| [without(at), with(list[at]), with(list[at] / 64 * 64 + 7)]);
    let full = list.iter().copied().chain(std::iter::repeat(0)).take(MOST_ENTRIES).collect();
    let over = list.iter().copied().chain(std::iter::repeat(0)).take(MOST_ENTRIES + 1).collect();
    [turned, with(MOST_MOVE), with(MOST_MOVE + 1), full, over].into_iter().chain(rest).collect()
}

fn on_both(given: Side, other: Side, asked: &[Asked]) -> Vec<Input> {
    let input = |form: Form, asked: &Asked| Input { form, asked: asked.clone(), given: given.clone(), other: other.clone() };
    FORMS.iter().flat_map(|form| asked.iter().map(|asked| input(*form, asked)).collect::<Vec<_>>()).collect()
}

/// The paper's places, two knights that go to one square and three of them, and positions with men that go to one square.
fn small_places() -> Vec<Side> {
    let knights = |list: &[u16]| Side::new(records::with(&[(1, 2), (12, 2), (33, 2)]), list.to_vec());
    let few = [knights(&[1153, 1164]), knights(&[1153, 1164, 1185]), knights(&[1153, 1153, 1164])];
    let legal = [13, 14, 16, 17].map(|n: usize| Side::of(&Place::legal(board_of(STARTS[n]))));
    paper_places().iter().map(Side::of).chain(few).chain(legal).collect()
}

fn small() -> impl Iterator<Item = Input> {
    small_places().into_iter().flat_map(|given| {
        let read = TEXTS.iter().map(|text| Asked::Read(text.as_bytes().to_vec()));
        let names = given.list.clone().into_iter().take(16).flat_map(|m| [0, -1].map(|off| Asked::Name(m.into(), off)));
        let asked: Vec<Asked> = read.chain(names).chain([Asked::Name(70_000, 0)]).collect();
        others(&given.list).into_iter().flat_map(move |list| on_both(given.clone(), given.with(list), &asked))
    })
}

/// Two men of one kind that reach one square, from every two squares, in both orders.
fn two_men() -> impl Iterator<Item = Input> {
    (0..64 * 64 * 6usize).flat_map(|n| {
        let (a, b, kind) = (n % 64, n / 64 % 64, (n / 4096) as u8 + 1);
        let list = [a, b].map(|from| (from + 64 * 28) as u16);
        let given = Side::new(records::with(&[(a, kind), (b, kind)]), list.to_vec());
        on_both(given.clone(), given.with(vec![list[1], list[0]]), &[Asked::Name(list[0].into(), 0)])
    })
}

/// A place serves so many questions before the next is made.
const ASKED_A_PLACE: usize = 24;

pub struct Lists {
    positions: Positions,
    given: Side,
}

impl Lists {
    pub fn new() -> Lists {
        Lists { positions: Positions::default(), given: Side::new(records::EMPTY, vec![]) }
    }

    fn next_given(&mut self, random: &mut Random) -> Side {
        let place = match random.once_in(2) {
            true => random_place(&mut self.positions, random),
            false => Place::counted(self.positions.next(random), random),
        };
        if !random.once_in(16) {
            return Side::of(&place);
        }
        let mut given = Given::of(&place).as_ref().clone();
        put_out_of_range(&mut given, random);
        Side::new(given.record, given.list)
    }

    fn text(&self, form: Form, random: &mut Random) -> Vec<u8> {
        let Side { record, list, judge } = &self.given;
        match (form, judge) {
            (Form::Paper, Ok(place)) => san::random_text(place, random).into_bytes(),
            (Form::Paper, Err(_)) => random.pick(&TEXTS).as_bytes().to_vec(),
            (Form::Standard, _) => san_standard::random_text(&Given { record: *record, list: list.clone() }, random),
        }
    }
}

impl Part for Lists {
    type Input = Input;
    const NAME: &'static str = "lists";

    fn fixed(&self) -> Box<dyn Iterator<Item = Input>> {
        Box::new(small().chain(two_men()))
    }

    fn random(&mut self, random: &mut Random) -> Option<Input> {
        if random.once_in(ASKED_A_PLACE) {
            self.given = self.next_given(random);
        }
        let form = *random.pick(&FORMS);
        let asked = match random.once_in(3) {
            true if !self.given.list.is_empty() && !random.once_in(24) => {
                Asked::Name((*random.pick(&self.given.list)).into(), *random.pick(&[0, 0, 0, 1, 9, -1, -12]))
            }
            true => Asked::Name(random.below(70_000) as u64, 0),
            false => Asked::Read(self.text(form, random)),
        };
        let given = self.given.clone();
        // The move that the text names, or that is to be named.
        let wanted = match &asked {
            Asked::Read(text) => given.owed_read(form, text).ok().filter(|owed| owed.number == 0).map(|owed| owed.value as u16),
            Asked::Name(number, _) => u16::try_from(*number).ok(),
        };
        let list = match random.below(8) {
            0..=2 => shuffled(&given.list, random),
            3 | 4 => thinned(&given.list, wanted, random),
            _ => filled(&given.list, wanted, random),
        };
        let other = given.with(list);
        Some(Input { form, asked, given, other })
    }

    fn compare(&self, input: &Input, tally: &mut Tally) -> Result<(), String> {
        match &input.asked {
            Asked::Read(text) => compare_read(input, text, tally),
            Asked::Name(number, off) => compare_name(input, *number, *off, tally),
        }
    }

    /// Shorter texts first, then entries left out of both lists, then emptier records.
    fn smaller(&self, input: &Input) -> Vec<Input> {
        let with = |record: Record, keep: &[u16]| {
            let cut = |side: &Side| side.list.iter().copied().filter(|entry| keep.contains(entry)).collect();
            let sides = [&input.given, &input.other].map(|side| Side::new(record, cut(side)));
            let [given, other] = sides;
            Input { given, other, ..input.clone() }
        };
        let mut entries = [&input.given.list[..], &input.other.list].concat();
        entries.sort_unstable();
        entries.dedup();
        let record = input.given.record;
        let shorter = match &input.asked {
            Asked::Read(text) => texts::cuts(&String::from_utf8_lossy(text)),
            Asked::Name(..) => vec![],
        };
        let texts = shorter.into_iter().map(|text| Input { asked: Asked::Read(text.into_bytes()), ..input.clone() });
        let lists = texts::cut_lists(&entries).into_iter().map(|keep| with(record, &keep));
        texts.chain(lists).chain(records::smaller(&record).into_iter().map(|record| with(record, &entries))).collect()
    }

    fn show(&self, input: &Input) -> String {
        let asked = match &input.asked {
            Asked::Read(text) => format!("{:?}", String::from_utf8_lossy(text)),
            Asked::Name(number, _) => format!("move {}", number),
        };
        let place = format!("{}, list {:?}, then {:?}", records::show(&input.given.record), input.given.list, input.other.list);
        format!("{:?} form: {} on {}", input.form, asked, place)
    }
}

#[test]
fn by_how_often() {
    assert_eq!(change(&[1, 2], &[2, 1]), Change::Shuffled);
    assert_eq!(change(&[1, 2, 1], &[1, 2]), Change::Thinned);
    assert_eq!(change(&[1, 2], &[2, 2, 1]), Change::Filled);
    assert_eq!(change(&[1, 2, 1], &[1, 2, 2]), Change::Else);
}
