//! Inputs for `rolls` that are not games: numbers in every place of new and old rolls, the limits, and what a writer may be given.

use crate::damage;
use crate::pair::action_bytes;
use crate::records;
use crate::roll::{self, largest, Form, MOST_ACTIONS, MOST_MOVES};
use crate::rolls::Written;
use crate::texts;
use both::abi::{Record, ACTIONS_LENGTH, LAST_COUNT, NUMBERS};
use both::numbers::{color_of, move_of, MOST_MOVE};
use both::random::Random;
use chess::{Action, Color};

/// What stands before a number in a roll, and what behind it.
type Place = (Vec<u8>, Vec<u8>);

/// The empty record as a roll begins with it: with the counters 0 and 1 behind it, or without them.
pub fn empty_start(form: Form) -> Vec<u8> {
    let counters: &[u8] = if form == Form::New { &[0, 1] } else { &[] };
    [&[0; NUMBERS][..], counters].concat()
}

/// Each kind of number that a roll has, in a short roll: those of the record, the counters, the count, a code, a move's; of an old roll those behind
/// its record.
fn places() -> Vec<Place> {
    let zeros = |n: usize| vec![0; n];
    let record = [0, 31, 63, 64, 65, 66, 67].map(|at| (zeros(at), [zeros(NUMBERS - 1 - at), vec![0, 1, 0]].concat()));
    let counters = [(zeros(NUMBERS), vec![1, 0]), (zeros(NUMBERS + 1), vec![0]), (zeros(NUMBERS + 1), vec![1, 6])];
    let others = [Form::New, Form::Old].into_iter().flat_map(|form| {
        let behind = |bytes: &[u8]| [&empty_start(form), bytes].concat();
        [
            (behind(&[]), vec![2, 140, 14]), (behind(&[]), vec![]), (behind(&[1]), vec![]), (behind(&[1]), vec![12]),
            (behind(&[2]), vec![6]), (behind(&[1, 2]), vec![]), (behind(&[2, 2]), vec![8]),
        ]
    });
    record.into_iter().chain(counters).chain(others).collect()
}

/// Each text in each place of a number.
fn everywhere(texts: Vec<Vec<u8>>) -> impl Iterator<Item = Vec<u8>> {
    let each = move |(before, behind): Place| {
        texts.clone().into_iter().map(move |text| [&before[..], &text, &behind].concat())
    };
    places().into_iter().flat_map(each)
}

/// All texts of up to so many bytes over some.
fn all(bytes: &[u8], most: u32) -> Vec<Vec<u8>> {
    let mut texts = vec![vec![]];
    let mut last = texts.clone();
    for _ in 0..most {
        last = last.iter().flat_map(|t: &Vec<u8>| bytes.iter().map(move |b| [&t[..], &[*b]].concat())).collect();
        texts.extend(last.clone());
    }
    texts
}

/// All single bytes, and all texts of up to 6 bytes at the edges of a group, in each place; every move, and 4,096 numbers that
/// are none; every count as either counter, and as many that are none.
pub fn numbers() -> impl Iterator<Item = Vec<u8>> {
    let single = (0..=255).map(|b| vec![b]).collect();
    let edges = all(&[0, 1, 127, 128, 255], 6);
    let moves = (0..=MOST_MOVE as u64 + 4_096).map(|number| with_number(&[&empty_start(Form::New)[..], &[1, 2]].concat(), number, &[]));
    let counts = (0..=u64::from(LAST_COUNT) + 4_096).flat_map(|number| {
        [with_number(&[0; NUMBERS], number, &[1, 0]), with_number(&[0; NUMBERS + 1], number, &[0])]
    });
    everywhere(single).chain(everywhere(edges)).chain(moves).chain(counts)
}

/// A number between what stands before it and behind it.
fn with_number(before: &[u8], number: u64, behind: &[u8]) -> Vec<u8> {
    let mut roll = before.to_vec();
    roll::put_number(number, &mut roll);
    roll.extend(behind);
    roll
}

/// So many moves of two kings to and fro, as the crate's actions.
fn king_moves(count: usize) -> Vec<Action> {
    let round = [20 + 64 * 19, 44 + 64 * 43, 19 + 64 * 20, 43 + 64 * 44].map(|number| Action::MakeMove(move_of(number)));
    round.into_iter().cycle().take(count).collect()
}

/// Two kings late in a game, so that each counter has two groups.
fn kings() -> Record {
    Record { half_moves: 128, full_moves: LAST_COUNT, ..records::with(&[(20, 6), (44, 12)]) }
}

/// Around the limits of moves and of actions. The one move too many is cut in each place, and is followed by much else.
pub fn limits() -> impl Iterator<Item = Vec<u8>> {
    let offers = |n: usize| vec![Action::OfferDraw(Color::Black); n];
    let mut rolls = vec![];
    for moves in [0, 1, MOST_MOVES - 1, MOST_MOVES, MOST_MOVES + 1, MOST_MOVES + 2] {
        for others in [0, 1, MOST_MOVES - 1, MOST_MOVES, MOST_MOVES + 1, 2 * MOST_MOVES, 2 * MOST_MOVES + 1] {
            let lists = [[king_moves(moves), offers(others)].concat(), [offers(others), king_moves(moves)].concat()];
            rolls.extend(lists.iter().flat_map(|list| [Form::New, Form::Old].map(|form| roll::write_as(form, &kings(), list))));
        }
    }
    let mut full = roll::write(&kings(), &[king_moves(MOST_MOVES), offers(1)].concat());
    full.pop();
    let last = all(&[0, 2, 3, 4, 128, 130], 3);
    let behind = last.into_iter().map(move |text| [&full[..], &text].concat());
    rolls.into_iter().chain(behind).chain(full_damaged())
}

/// The ends of two full rolls, and of one with a move too many, in every way damaged.
fn full_damaged() -> impl Iterator<Item = Vec<u8>> {
    let offers = vec![Action::OfferDraw(Color::White); MOST_MOVES];
    let endings = [
        [king_moves(MOST_MOVES), offers.clone()].concat(),
        [offers, king_moves(MOST_MOVES)].concat(),
        king_moves(MOST_MOVES + 1),
    ];
    endings.into_iter().flat_map(|actions| {
        let roll = roll::write(&kings(), &actions);
        let from = roll.len() - 40;
        damage::all(roll, from, Random::new(1, "full"))
    })
}

impl Written {
    fn of(start: Record, actions: &[Action], count: u64, off: i64) -> Written {
        let mut part: Vec<u8> = actions.iter().flat_map(action_bytes).collect();
        part.resize(part.len().max(ACTIONS_LENGTH), 0xA5);
        Written { start, part, count, off }
    }

    /// With fewer actions, or with a record number put to 0.
    pub fn smaller(&self) -> Vec<Written> {
        let used = (4 * self.count.min(MOST_ACTIONS as u64) as usize).min(self.part.len() / 4 * 4);
        let actions: Vec<&[u8]> = self.part[..used].chunks(4).collect();
        let fewer = texts::cut_lists(&actions).into_iter().map(|left| {
            let mut part = left.concat();
            part.resize(self.part.len(), 0xA5);
            Written { part, count: self.count - (actions.len() - left.len()) as u64, ..self.clone() }
        });
        fewer.chain(records::smaller(&self.start).into_iter().map(|start| Written { start, ..self.clone() })).collect()
    }

    pub fn show(&self) -> String {
        let used = (4 * self.count.min(MOST_ACTIONS as u64) as usize).min(self.part.len());
        let actions: Vec<String> = self.part[..used].chunks(4).map(|a| format!("{:?}", a)).collect();
        let start = records::show(&self.start);
        format!("write {}, {} actions of a part of {}: {}", start, self.count, self.part.len(), actions.join(" "))
    }
}

/// Counts and moves around the limits, each record number and counter out of range, each byte of an action wrong, short parts, and
/// two of these at once, for the order in which they are refused.
pub fn writes() -> Vec<Written> {
    let offers = vec![Action::OfferDraw(Color::White); 2 * MOST_MOVES];
    let (few, most) = (king_moves(3), [king_moves(MOST_MOVES), offers.clone()].concat());
    let over = [king_moves(MOST_MOVES + 1), offers].concat();
    let mut all = vec![];
    let (moves, actions) = (MOST_MOVES as u64, MOST_ACTIONS as u64);
    let around = [moves - 1, moves, moves + 1, actions - 1, actions, actions + 1, 2 * actions];
    for count in [0, 1, 3].into_iter().chain(around).chain([1 << 32, (1 << 32) + 1, u64::MAX]) {
        all.extend([&few, &most, &over].map(|actions| Written::of(kings(), actions, count, 0)));
    }
    all.extend((-200..=200).map(|off| Written::of(kings(), &few, 3, off)));
    all.extend([&most, &over].map(|actions| Written::of(kings(), actions, MOST_ACTIONS as u64, -1)));
    let bases: Vec<Written> = all.clone();
    for base in bases.iter().filter(|b| b.off == 0) {
        let mut short = base.clone();
        short.part.truncate(ACTIONS_LENGTH - 1);
        let mut bad = base.clone();
        bad.part[8..12].copy_from_slice(&[1, 1, 0, 0]);
        let mut outside = bad.clone();
        outside.start.numbers[64] = 2;
        let mut counter = bad.clone();
        counter.start.full_moves = 0;
        all.extend([short, bad, outside, counter]);
    }
    all.extend((0..NUMBERS).flat_map(|at| [largest(at), largest(at) + 1, 255].map(|number| {
        let mut given = Written::of(kings(), &few, 3, 0);
        given.start.numbers[at] = number;
        given
    })));
    let counts = [0, 1, 127, 128, LAST_COUNT, LAST_COUNT + 1, 16_383, 16_384, u16::MAX];
    all.extend(counts.into_iter().flat_map(|half_moves| counts.map(|full_moves| {
        Written::of(Record { half_moves, full_moves, ..kings() }, &few, 3, 0)
    })));
    all.extend((0..4 * 256).map(|n| {
        let mut given = Written::of(kings(), &few, 3, 0);
        given.part[4 + n / 256] = n as u8;
        given
    }));
    all
}

/// An action in range, a move as a rule.
pub fn random_action(random: &mut Random) -> Action {
    let color = color_of(random.below(2) as u8);
    match random.below(8) {
        0 => Action::OfferDraw(color),
        1 => *random.pick(&[Action::AcceptDraw, Action::DeclareDraw]),
        2 => Action::Resign(color),
        _ => Action::MakeMove(move_of(random.below(MOST_MOVE as usize + 1) as u16)),
    }
}

/// Any record and any actions, mostly in range.
pub fn random(random: &mut Random) -> Written {
    let used = texts::length_near(&[120, 128, 1_160, 2_046], random);
    let actions: Vec<Action> = (0..used).map(|_| random_action(random)).collect();
    let off = *random.pick(&[0, 0, 0, 1, 50, -1, -2, -70]);
    let mut given = Written::of(records::random(random), &actions, used as u64, off);
    match random.below(12) {
        0 => given.start.numbers[random.below(NUMBERS)] = random.next() as u8,
        1 | 2 => given.part[random.below(4 * used.clamp(1, 100))] = random.next() as u8,
        3 => given.count = random.below(2_100) as u64,
        4 => given.part.truncate(ACTIONS_LENGTH - random.below(2)),
        5 => records::put_counter_out_of_range(&mut given.start, random),
        _ => (),
    }
    given
}

/// A roll with something left out, or with a number of its record put to 0. Of a long one no single bytes are tried, for each
/// move can lose one and stay a move, and a difference at the limits would take minutes to show.
pub fn smaller_rolls(roll: &[u8]) -> Vec<Vec<u8>> {
    let mut smaller = texts::cut_lists(roll);
    smaller.retain(|cut| roll.len() < 1_000 || roll.len() - cut.len() > 7);
    smaller.extend((0..roll.len().min(NUMBERS)).filter(|at| roll[*at] != 0).map(|at| {
        let mut other = roll.to_vec();
        other[at] = 0;
        other
    }));
    smaller
}
