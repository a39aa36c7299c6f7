//! `differences`: rolls of the crate's games beside copies with something changed, and beside anything else. What is owed comes from
//! `what_differs`, which was written from the paper: the crate has no such call.

use crate::damage;
use crate::lent::check_bytes;
use crate::part::{Part, Tally};
use crate::records;
use crate::roll::{self, largest, Form};
use crate::rolls::roll_of;
use crate::rollwork::{self, empty_start, random_action};
use crate::script;
use crate::texts;
use crate::what_differs;
use both::abi::{self, Record, LAST_COUNT, MOST_ACTIONS, MOST_MOVES, NUMBERS};
use both::numbers::{color_of, move_of, MOST_MOVE};
use both::random::Random;
use chess::Action;

/// Two rolls, and how many bytes the lent room is longer than the text.
#[derive(Clone)]
pub struct Input {
    pub first: Vec<u8>,
    pub second: Vec<u8>,
    pub off: i64,
}

/// The longest room that is lent: some bytes more than the longest text.
const OFFS: [i64; 8] = [0, 0, 0, 1, 40, -1, -2, -1_000];

pub struct Differences {
    /// The last game that was played, as its start and its actions.
    game: (Record, Vec<Action>),
}

impl Differences {
    pub fn new() -> Differences {
        Differences { game: (records::EMPTY, vec![]) }
    }
}

/// The copy with one thing changed: a start number or counter, an action changed, put in, left out, or the actions cut off; or none.
fn change(start: &mut Record, actions: &mut Vec<Action>, random: &mut Random) {
    let at = random.below(actions.len().max(1));
    match random.below(14) {
        0..=2 => start.numbers[random.below(64)] = random.below(13) as u8,
        3 | 4 => {
            let place = 64 + random.below(4);
            start.numbers[place] = random.below(largest(place) as usize + 1) as u8;
        }
        5 | 6 if !actions.is_empty() => actions[at] = random_action(random),
        7 if actions.len() < 1_000 => actions.insert(at, random_action(random)),
        8 if actions.len() < 1_000 => actions.push(random_action(random)),
        9 if !actions.is_empty() => drop(actions.remove(at)),
        10 => actions.truncate(at),
        11 => start.half_moves = records::random_counter(0, random),
        12 => start.full_moves = records::random_counter(1, random),
        _ => (),
    }
}

fn compare(input: &Input, tally: &mut Tally) -> Result<(), String> {
    let owed = what_differs::owed(&input.first, &input.second);
    let (first, second) = (input.first.clone(), input.second.clone());
    let shown = |bytes: &[u8]| format!("{:?}", String::from_utf8_lossy(bytes));
    let text = owed.as_deref().map(str::as_bytes).map_err(|number| *number);
    // Without a text the room is measured from 0, so it is lent some bytes that must stay.
    let off = if text.is_ok() { input.off } else { input.off + 200 };
    let yes = check_bytes(text, off, |out| abi::roll_differences(&first, &second, out), shown)?;
    if first != input.first || second != input.second {
        return Err("a lent roll was changed".to_string());
    }
    tally.count("differences", yes);
    Ok(())
}

/// The roll of a record, without an action.
fn only(start: Record) -> Vec<u8> {
    roll::write(&start, &[])
}

/// The roll of the empty record with the number at a place changed.
fn with(place: usize, number: u8) -> Vec<u8> {
    only(records::with(&[(place, number)]))
}

/// A roll of as many offers, and then a move.
fn offers_and(count: usize, number: u16) -> Vec<u8> {
    let mut actions = vec![Action::OfferDraw(color_of(0)); count];
    actions.push(Action::MakeMove(move_of(number)));
    roll::write(&records::EMPTY, &actions)
}

/// Each number of a start at each value against the empty record and against one more; counters of one to four digits and of each number of bytes
/// against each other; each action's code against each other's.
fn single() -> impl Iterator<Item = (Vec<u8>, Vec<u8>)> {
    let numbers = (0..NUMBERS).flat_map(|place| {
        let next = move |x: u8| (x + 1).min(largest(place));
        (0..=largest(place)).flat_map(move |x| [(with(place, x), only(records::EMPTY)), (with(place, x), with(place, next(x)))])
    });
    const COUNTS: [u16; 9] = [0, 1, 9, 10, 127, 128, 999, 1_000, LAST_COUNT];
    let counted = |n: u16| {
        let (half, full) = (Record { half_moves: n, ..records::EMPTY }, Record { full_moves: n.max(1), ..records::EMPTY });
        [half, full, Record { half_moves: n, ..full }]
    };
    let counts = COUNTS.into_iter().flat_map(move |a| COUNTS.into_iter().flat_map(move |b| {
        counted(a).into_iter().flat_map(move |a| counted(b).map(|b| (only(a), only(b))))
    }));
    let codes: Vec<Vec<u8>> = [&[0][..], &[1, 4], &[1, 5], &[1, 6], &[1, 8], &[1, 10], &[1, 11], &[1, 2, 0], &[1, 2, 1], &[1, 2, 255, 223, 1]]
        .iter().map(|codes| [empty_start(Form::New), codes.to_vec()].concat()).collect();
    let other = codes.clone();
    let pairs = codes.into_iter().flat_map(move |a| other.clone().into_iter().map(move |b| (a.clone(), b)));
    let indices = [0, 9, 10, 99, 100, 999, 1_000, MOST_ACTIONS - 1].into_iter()
        .flat_map(|n| [(offers_and(n, 0), offers_and(n, MOST_MOVE)), (offers_and(n, MOST_MOVE), offers_and(n.max(1) - 1, 7))]);
    numbers.chain(counts).chain(pairs).chain(indices)
}

/// The longest text there is: every square with two digits on both sides, counters of four, and a late move.
fn longest() -> [Vec<u8>; 2] {
    let of = |man: u8, rest: [u8; 4], counter: u16, number: u16| {
        let mut start = Record { half_moves: counter, full_moves: counter, ..Record::of([man; NUMBERS]) };
        start.numbers[64..].copy_from_slice(&rest);
        let mut actions = vec![Action::AcceptDraw; 1_500];
        actions.push(Action::MakeMove(move_of(number)));
        roll::write(&start, &actions)
    };
    [of(10, [0; 4], LAST_COUNT - 1, MOST_MOVE), of(12, [1, 3, 3, 8], LAST_COUNT, MOST_MOVE - 1)]
}

/// Rolls that are refused, with each of the reader's numbers, old ones among them, and good ones.
fn mixed() -> Vec<Vec<u8>> {
    let start = || empty_start(Form::New);
    let counting = |count: usize| {
        let mut roll = start();
        roll::put_number(count as u64, &mut roll);
        roll
    };
    let too_many = counting(MOST_ACTIONS + 1);
    let moves = [counting(MOST_MOVES + 1), [2, 0].repeat(MOST_MOVES + 1)].concat();
    let no_move_number = vec![0; NUMBERS + 3];
    let old = vec![0; NUMBERS + 1];
    let no_code = [start(), vec![1, 7]].concat();
    vec![vec![], vec![13], start(), counting(0), [counting(0), vec![0]].concat(), too_many, moves, no_code, no_move_number, old, with(28, 1)]
}

impl Part for Differences {
    type Input = Input;
    const NAME: &'static str = "differences";

    fn fixed(&self) -> Box<dyn Iterator<Item = Input>> {
        let every_room = |(first, second): (Vec<u8>, Vec<u8>)| OFFS.map(|off| Input { first: first.clone(), second: second.clone(), off });
        let [long, longer] = longest();
        let rooms = (-700..40).map(move |off| Input { first: long.clone(), second: longer.clone(), off });
        let mixed = mixed().into_iter().flat_map(|a| mixed().into_iter().map(move |b| (a.clone(), b)));
        let games: Vec<Vec<u8>> = script::told().iter().map(roll_of).collect();
        let other = games.clone();
        let games = games.into_iter().flat_map(move |a| other.clone().into_iter().map(move |b| (a.clone(), b)));
        Box::new(single().chain(mixed).chain(games).flat_map(every_room).chain(rooms).chain(rollwork::numbers().step_by(7).map(|roll| Input {
            first: roll,
            second: only(records::EMPTY),
            off: 0,
        })))
    }

    fn random(&mut self, random: &mut Random) -> Option<Input> {
        if random.once_in(24) || self.game.1.is_empty() {
            self.game = crate::rolls::game_of(&script::random(random));
        }
        let off = *random.pick(&OFFS);
        let (mut start, mut actions) = self.game.clone();
        let mut first = roll::write(&start, &actions);
        for _ in 0..random.below(4) {
            change(&mut start, &mut actions, random);
        }
        let mut second = roll::write(&start, &actions);
        match random.below(24) {
            0 => first = damage::twice(&first, random),
            1 => second = damage::twice(&second, random),
            2 => (first, second) = (damage::twice(&first, random), damage::twice(&second, random)),
            3 => {
                let given = rollwork::random(random);
                first = roll::owed_write(&given.start, &given.part, given.count).unwrap_or_default();
            }
            4..=7 => std::mem::swap(&mut first, &mut second),
            _ => (),
        }
        Some(Input { first, second, off })
    }

    fn compare(&self, input: &Input, tally: &mut Tally) -> Result<(), String> {
        compare(input, tally)
    }

    fn smaller(&self, input: &Input) -> Vec<Input> {
        let (first, second) = (&input.first, &input.second);
        let firsts = rollwork::smaller_rolls(first).into_iter().map(|first| Input { first, ..input.clone() });
        let seconds = rollwork::smaller_rolls(second).into_iter().map(|second| Input { second, ..input.clone() });
        // Both at once: a start number that is the same on both sides, or an action left out of both.
        let cut = |roll: &[u8]| texts::cut_lists(&roll[NUMBERS.min(roll.len())..]);
        let join = |roll: &[u8], behind: Vec<u8>| [&roll[..NUMBERS.min(roll.len())], &behind[..]].concat();
        let both = cut(first).into_iter().zip(cut(second)).map(|(a, b)| Input { first: join(first, a), second: join(second, b), ..*input });
        let zeros = (0..NUMBERS.min(first.len()).min(second.len())).filter(|at| first[*at] != 0 && first[*at] == second[*at]).map(|at| {
            let (mut first, mut second) = (first.clone(), second.clone());
            (first[at], second[at]) = (0, 0);
            Input { first, second, ..*input }
        });
        let rooms = (input.off != 0).then(|| Input { off: 0, ..input.clone() });
        firsts.chain(seconds).chain(both).chain(zeros).chain(rooms).collect()
    }

    fn show(&self, input: &Input) -> String {
        format!("{} against {}, room {:+}", crate::rolls::show_bytes(&input.first), crate::rolls::show_bytes(&input.second), input.off)
    }
}

#[test]
fn the_longest_has_658_bytes() {
    let [first, second] = longest();
    assert_eq!(what_differs::owed(&first, &second).map(|text| text.len()), Ok(658));
}
