//! Rolls (document 02, orders 1 and 12), new ones and old ones, beside a writer and a reader made from the orders' own words.

use crate::common::{Numbers, Parts, counted, empty, out_of_range, play, random_record};
use menkhodur::lent::{self, ACTIONS_PART, MAX_ACTIONS, MAX_MOVES, MAX_ROLL, Record};
use menkhodur::{Action, Board, Color, Error, GameResult, MAX_MOVE, Move, Roll};

/// A start and its actions' bytes.
type Game = (Record, Vec<[u8; 4]>);

/// "A roll writes both [counters] after the old 68 numbers. Old rolls are read by their own call and get 0 and 1"
#[derive(Clone, Copy, Debug, PartialEq)]
enum Kind {
    New,
    Old,
}

const KINDS: [Kind; 2] = [Kind::New, Kind::Old];

impl Kind {
    fn lent(self, roll: &[u8], part: &mut [u8]) -> Result<lent::Rolled, Error> {
        match self {
            Kind::New => lent::roll_read(roll, part),
            Kind::Old => lent::roll_read_old(roll, part),
        }
    }

    fn typed(self, roll: &[u8]) -> Result<Roll, Error> {
        match self {
            Kind::New => Roll::from_bytes(roll),
            Kind::Old => Roll::from_old_bytes(roll),
        }
    }

    /// What is written of a roll that was read: a new one as it came, and an old one with the counters 0 and 1 behind its 68 numbers, each of
    /// which has one byte.
    fn written(self, roll: &[u8]) -> Vec<u8> {
        match self {
            Kind::New => roll.to_vec(),
            Kind::Old => [&roll[..68], &[0, 1], &roll[68..]].concat(),
        }
    }

    /// The front of the roll of an empty board with the counters 0 and 1.
    fn front(self) -> Vec<u8> {
        match self {
            Kind::New => [&[0; 68][..], &[0, 1]].concat(),
            Kind::Old => vec![0; 68],
        }
    }
}

/// "in groups of seven bits, lowest group first, top bit set on all but the last group, in the fewest groups"
fn number_text(mut number: u64) -> Vec<u8> {
    let mut groups = Vec::new();
    while number > 127 {
        groups.push(128 + (number % 128) as u8);
        number /= 128;
    }
    groups.push(number as u8);
    groups
}

fn roll_of((record, actions): &Game) -> Vec<u8> {
    let mut numbers: Vec<u64> = record.numbers.iter().copied().map(u64::from).collect();
    numbers.extend([u64::from(record.half_moves), u64::from(record.full_moves), actions.len() as u64]);
    for &[kind, colour, low, high] in actions {
        numbers.push(u64::from(kind) * 2 + u64::from(colour));
        if kind == 1 {
            numbers.push(u64::from(low) + 256 * u64::from(high));
        }
    }
    numbers.into_iter().flat_map(number_text).collect()
}

/// The number at the front and what is left, or 17: "a number not shortest or over five groups (before its size is judged)".
fn number(text: &[u8]) -> Result<(u64, &[u8]), u64> {
    let groups = text.iter().position(|&byte| byte < 128).ok_or(17_u64)? + 1;
    let (written, rest) = text.split_at(groups);
    if groups > 5 || (groups > 1 && written[groups - 1] == 0) {
        return Err(17);
    }
    Ok((written.iter().rev().fold(0, |number, &byte| 128 * number + u64::from(byte % 128)), rest))
}

fn action(text: &[u8], no_more_moves: bool) -> Result<([u8; 4], &[u8]), u64> {
    let (code, rest) = number(text)?;
    match code {
        2 if no_more_moves => Err(13),
        2 => {
            let (made, rest) = number(rest)?;
            if made > 28_671 {
                return Err(17);
            }
            Ok(([1, 0, (made % 256) as u8, (made / 256) as u8], rest))
        }
        4 | 5 | 6 | 8 | 10 | 11 => Ok(([(code / 2) as u8, (code % 2) as u8, 0, 0], rest)),
        _ => Err(17),
    }
}

/// A number of the start at the front, and what is left.
fn start_number(text: &[u8], least: u64, most: u64) -> Result<(u64, &[u8]), u64> {
    let (found, rest) = number(text)?;
    if (least..=most).contains(&found) { Ok((found, rest)) } else { Err(5) }
}

fn start(kind: Kind, roll: &[u8]) -> Result<(Record, &[u8]), u64> {
    let (mut record, mut left) = (empty(), roll);
    for place in 0..68 {
        let (found, rest) = start_number(left, 0, [12, 1, 3, 3, 8][usize::max(place, 63) - 63])?;
        (record.numbers[place], left) = (found as u8, rest);
    }
    if kind == Kind::New {
        let (half, rest) = start_number(left, 0, 9_999)?;
        let (full, rest) = start_number(rest, 1, 9_999)?;
        (record.half_moves, record.full_moves, left) = (half as u16, full as u16, rest);
    }
    Ok((record, left))
}

/// The game of a roll, or the first refusal from the left.
fn game_of(kind: Kind, roll: &[u8]) -> Result<Game, u64> {
    let (record, left) = start(kind, roll)?;
    let (count, mut left) = number(left)?;
    if count > MAX_ACTIONS as u64 {
        return Err(13);
    }
    let mut actions: Vec<[u8; 4]> = Vec::new();
    for _ in 0..count {
        let moves = actions.iter().filter(|action| action[0] == 1).count();
        let (read, rest) = action(left, moves == MAX_MOVES)?;
        actions.push(read);
        left = rest;
    }
    if left.is_empty() { Ok((record, actions)) } else { Err(17) }
}

/// A part with these actions, filled so that a stray write shows.
fn part_with(actions: &[[u8; 4]]) -> Vec<u8> {
    let mut part = vec![0xA5; ACTIONS_PART];
    part[..4 * actions.len()].copy_from_slice(actions.as_flattened());
    part
}

/// Asks the reader and the writer for what the orders say of these bytes; what is accepted is written back as it came, an old one with its
/// counters.
fn check_as(kind: Kind, roll: &[u8]) -> Result<Game, u64> {
    let judged = game_of(kind, roll);
    let mut part = part_with(&[]);
    match &judged {
        Ok((record, actions)) => {
            let rolled = kind.lent(roll, &mut part).unwrap();
            assert_eq!((rolled.record, rolled.actions), (*record, actions.len() as u64));
            assert!(part == part_with(actions));
            let written = kind.written(roll);
            let mut room = vec![0xA5; written.len() + 9];
            assert_eq!(lent::roll_write(record, &part, rolled.actions, &mut room), Ok(written.len()));
            assert!(room.starts_with(&written) && room[written.len()..] == [0xA5; 9]);
            assert_eq!(kind.typed(roll).unwrap().to_bytes(), Ok(written));
        }
        Err(refusal) => {
            assert_eq!(kind.lent(roll, &mut part).unwrap_err().number(), *refusal, "{kind:?} {roll:?}");
            assert!(part == part_with(&[]), "{refusal}: a refused call has written");
            assert_eq!(kind.typed(roll).unwrap_err().number(), *refusal);
        }
    }
    judged
}

/// Asks both readers; and what the old one takes, it takes exactly if the new one takes it with the counters 0 and 1 put in.
fn check(kind: Kind, roll: &[u8]) -> Result<Game, u64> {
    let (new, old) = (check_as(Kind::New, roll), check_as(Kind::Old, roll));
    if roll.len() >= 68 {
        assert_eq!(check_as(Kind::New, &Kind::Old.written(roll)).ok(), old.clone().ok());
    }
    if kind == Kind::New { new } else { old }
}

/// Asks for a refusal of the writer that leaves every byte of the room.
fn refuses(want: Error, record: &Record, part: &[u8], count: u64, length: usize) {
    let mut room = vec![0xA5; length];
    assert_eq!(lent::roll_write(record, part, count, &mut room), Err(want));
    assert!(room.iter().all(|&byte| byte == 0xA5), "{want}: a refused call has written");
}

/// Every kind of action, and the smallest and the greatest move.
fn all_kinds() -> Roll {
    let moves = [1_804, u64::from(MAX_MOVE), 0].map(|number| Action::MakeMove(Move::from_number(number).unwrap()));
    let offers = [Action::OfferDraw(Color::White), Action::OfferDraw(Color::Black)];
    let endings = [Action::AcceptDraw, Action::DeclareDraw, Action::Resign(Color::White), Action::Resign(Color::Black)];
    Roll { start: counted(Board::default(), (130, 77)), actions: [&moves[..], &offers, &endings].concat() }
}

/// The same, written out by hand: 1,804 is 12 + 128 * 14, and 28,671 is 127 + 128 * 95 + 16,384.
fn all_kinds_by_hand() -> Vec<u8> {
    let back = [4, 2, 3, 5, 6, 3, 2, 4];
    let mut roll = [back, [1; 8], [0; 8], [0; 8], [0; 8], [0; 8], [7; 8], back.map(|piece| piece + 6)].concat();
    roll.extend([0, 3, 3, 0]);
    // The counters 130, which is 2 + 128 * 1, and 77.
    roll.extend([0x82, 0x01, 77]);
    roll.extend([9, 2, 0x8C, 0x0E, 2, 0xFF, 0xDF, 0x01, 2, 0, 4, 5, 6, 8, 10, 11]);
    roll
}

/// The same without its counters.
fn all_kinds_of_old() -> Vec<u8> {
    let roll = all_kinds_by_hand();
    [&roll[..68], &roll[71..]].concat()
}

#[test]
fn a_roll_by_hand() {
    let (roll, bytes) = (all_kinds(), all_kinds_by_hand());
    assert_eq!(roll.to_bytes().as_ref(), Ok(&bytes));
    assert_eq!(Roll::try_from(&bytes[..]).as_ref(), Ok(&roll));
    let (record, actions) = check(Kind::New, &bytes).unwrap();
    assert_eq!((&record, actions.len()), (roll.start.record(), 9));
    assert_eq!(actions[..2], [[1, 0, 12, 7], [1, 0, 255, 111]]);
}

#[test]
fn an_old_roll_by_hand() {
    let bytes = all_kinds_of_old();
    let start = counted(all_kinds().start, (0, 1));
    assert_eq!(Roll::from_old_bytes(&bytes), Ok(Roll { start, ..all_kinds() }));
    assert_eq!(check(Kind::Old, &bytes), Ok((*start.record(), check(Kind::New, &all_kinds_by_hand()).unwrap().1)));
    // On the new call it is a clock of 9, a move number of 2, and a count of 1,804 for 8 actions.
    assert_eq!(check(Kind::New, &bytes), Err(17));
    assert_eq!(check(Kind::Old, &all_kinds_by_hand()), Err(17));
}

#[test]
fn a_logs_roll() {
    let start = counted(Board::default(), (9_999, 127));
    let mut log = play(start, "b1c3 b8c6", "e2e4", "c3b1");
    // 9,999 is 15 + 128 * 78.
    let mut want = [&Board::default().numbers()[..], &[128 + 15, 78, 127, 2]].concat();
    // 1,153 is 1 + 128 * 9, and 2,745 is 57 + 128 * 21.
    want.extend([2, 128 + 1, 9, 2, 128 + 57, 21]);
    assert_eq!(log.to_roll(), want);
    log.offer_draw(Color::Black).unwrap();
    log.accept_draw().unwrap();
    assert_eq!(log.result(), Some(GameResult::DrawAccepted));
    want[71] = 4;
    want.extend([5, 6]);
    assert_eq!(log.to_roll(), want);

    let roll = Roll::from_bytes(log.to_roll()).unwrap();
    assert_eq!(roll.start, start);
    assert!(log.actions().eq(roll.actions.iter().copied()));
    assert_eq!(roll.to_bytes(), Ok(want));

    // The log's own part is one that the writer takes.
    let parts = Parts::of(&log);
    let mut room = [0; MAX_ROLL];
    let length = lent::roll_write(start.record(), &parts.actions, parts.counts.actions, &mut room).unwrap();
    assert_eq!(room[..length], log.to_roll());
}

#[test]
fn a_full_logs_roll() {
    let mut log = play(Board::default(), &"b1c3 b8c6 c3b1 c6b8 ".repeat(MAX_MOVES / 4), "", "b1c3");
    while log.offer_draw(Color::White).is_ok() {}
    let roll = Roll::from_bytes(log.to_roll()).unwrap();
    assert_eq!((roll.actions.len(), roll.start), (MAX_ACTIONS, Board::default()));
    assert!(log.actions().eq(roll.actions.iter().copied()));
    let actions = log.used_actions().chunks_exact(4).map(|bytes| bytes.try_into().unwrap()).collect();
    assert_eq!(log.to_roll(), roll_of(&(*Board::default().record(), actions)));
}

#[test]
fn a_start_alone() {
    let log = play(Board::default(), "", "", "");
    assert_eq!(log.to_roll(), [&Board::default().numbers()[..], &[0, 1, 0]].concat());
    assert_eq!(Roll::from_bytes(log.to_roll()), Ok(Roll { start: Board::default(), actions: vec![] }));
}

#[test]
fn every_cut_and_every_other_byte() {
    for (kind, whole) in [(Kind::New, all_kinds_by_hand()), (Kind::Old, all_kinds_of_old())] {
        let mut accepted = 0;
        for place in 0..whole.len() {
            assert_eq!(check(kind, &whole[..place]), Err(17));
            for byte in 0..=255 {
                let mut roll = whole.clone();
                roll[place] = byte;
                accepted += usize::from(check(kind, &roll).is_ok());
                roll[place] = whole[place];
                roll.insert(place, byte);
                accepted += usize::from(check(kind, &roll).is_ok());
            }
        }
        assert!(accepted > 64 * 13, "{accepted}");
        for byte in 0..=255 {
            assert_eq!(check(kind, &[&whole[..], &[byte]].concat()), Err(17));
        }
    }
}

#[test]
fn what_stands_behind_a_roll_is_not_looked_at() {
    for kind in KINDS {
        for made in [0, 1_804, 28_671] {
            let whole = [kind.front(), vec![1, 2], number_text(made)].concat();
            assert!(check(kind, &whole).is_ok());
            for length in 0..whole.len() {
                assert_eq!(check(kind, &whole[..length]), Err(17));
            }
        }
    }
}

/// They have two meanings, so that a store must know which kind it keeps.
#[test]
fn bytes_that_are_both_a_new_roll_and_an_old_one() {
    let smallest = [&[0; 68][..], &[1, 2, 0]].concat();
    assert_eq!(check(Kind::Old, &smallest), Ok((empty(), vec![[1, 0, 0, 0]])));
    assert_eq!(check(Kind::New, &smallest), Ok((Record { half_moves: 1, full_moves: 2, ..empty() }, vec![])));

    // A knight's move from b1 to a3, which has the number 1,025, and 1,025 offers: a clock of 1,026, the move number 2, and 1,025 offers.
    let long = [vec![0; 68], number_text(1_026), vec![2], number_text(1_025), vec![4; 1_025]].concat();
    let (old, new) = (check(Kind::Old, &long).unwrap(), check(Kind::New, &long).unwrap());
    assert_eq!((old.0, old.1.len(), old.1[0]), (empty(), 1_026, [1, 0, 1, 4]));
    assert_eq!((new.0.half_moves, new.0.full_moves, &new.1[..]), (1_026, 2, &old.1[1..]));

    // Nothing shorter is both: a new roll has at least 71 bytes, and an old one of 71 with another first action has its code as move number.
    let mut both = 0;
    for count in 0..=3 {
        for [first, second] in (0..=12).flat_map(|first| (0..=12).map(move |second| [first, second])) {
            let roll = [&[0; 68][..], &[count, first, second]].concat();
            both += usize::from(check(Kind::Old, &roll).is_ok() && check(Kind::New, &roll).is_ok());
        }
    }
    assert_eq!(both, 1);
}

#[test]
fn an_old_roll_on_the_new_call_and_a_new_one_on_the_old() {
    // An empty game of old: its count is the clock, and then the roll ends.
    assert_eq!(check(Kind::New, &[0; 69]), Err(17));
    // A move of old first: its number is taken for the count, here one of 9,999.
    let old = [vec![0; 68], vec![1, 2], number_text(9_999)].concat();
    assert_eq!((check(Kind::Old, &old).is_ok(), check(Kind::New, &old)), (true, Err(13)));
    // A new one with the counters 0 and 1 has no action of old, and goes on.
    let new = [Kind::New.front(), vec![0]].concat();
    assert_eq!((check(Kind::New, &new).is_ok(), check(Kind::Old, &new)), (true, Err(17)));
    // A clock of 9,999 is a count that no log has.
    let new = [vec![0; 68], number_text(9_999), vec![1, 0]].concat();
    assert_eq!((check(Kind::New, &new).is_ok(), check(Kind::Old, &new)), (true, Err(13)));
}

#[test]
fn random_games_come_back_and_changed_ones_are_judged() {
    let mut numbers = Numbers(17);
    for _ in 0..60 {
        let mut some_action = |_| match numbers.below(7) {
            colour @ 0..2 => [2, colour as u8, 0, 0],
            2 => [3 + numbers.below(2) as u8, 0, 0, 0],
            colour @ 3..5 => [5, colour as u8 - 3, 0, 0],
            _ => {
                let [low, high] = (numbers.below(28_672) as u16).to_le_bytes();
                [1, 0, low, high]
            }
        };
        let actions = (0..300).map(&mut some_action).collect();
        let game = (random_record(&mut numbers), actions);
        let roll = roll_of(&game);
        assert_eq!(check(Kind::New, &roll), Ok(game));
        let old = [&roll[..68], &roll[roll.len() - actions_bytes(&roll)..]].concat();
        assert!(check(Kind::Old, &old).is_ok());
        for roll in [roll, old] {
            for _ in 0..30 {
                let mut changed = roll.clone();
                changed[numbers.below(roll.len() as u64) as usize] = numbers.below(256) as u8;
                let _ = check(Kind::New, &changed);
            }
        }
    }
}

/// How many bytes the count and the actions of a new roll have.
fn actions_bytes(roll: &[u8]) -> usize {
    start(Kind::New, roll).unwrap().1.len()
}

#[test]
fn a_number_is_judged_before_its_size_and_never_cut() {
    let with = |front: &[u8], number: &[u8], rest: &[u8]| [front, number, rest].concat();
    for (number, in_record, as_counter, as_count) in [
        (&[0x80, 0][..], 17, Some(17), 17),
        (&[0x81, 0], 17, Some(17), 17),
        (&[0x90, 0xCE, 0], 17, Some(17), 17), // 10,000 with a needless group
        (&[0x80, 0x80, 0x80, 0x80, 0], 17, Some(17), 17),
        (&[0xFF, 0xFF, 0xFF, 0xFF, 0xFF, 0x7F], 17, Some(17), 17),
        (&[0x80, 0x80, 0x80, 0x80, 0x80, 1], 17, Some(17), 17),
        (&[0xFF, 0xFF, 0xFF, 0xFF, 0x7F], 5, Some(5), 13),
        (&[0x81, 0x80, 0x80, 0x80, 0x10], 5, Some(5), 13), // 2^32 + 1
        (&[0x81, 0x80, 4], 5, Some(5), 13),                // 65,537
        (&[0x90, 0x4E], 5, Some(5), 13),                   // 10,000
        (&[0x8F, 0x4E], 5, None, 13),                      // 9,999
        (&[0x81, 0x40], 5, None, 13),                      // 8,193
        (&[0x80, 0x40], 5, None, 17),
        (&[0x80, 2], 5, None, 17),
    ] {
        for kind in KINDS {
            let start = kind.front();
            for place in 0..68 {
                assert_eq!(check(kind, &with(&start[..place], number, &start[place..])), Err(in_record));
            }
            assert_eq!(check(kind, &with(&start, number, &[])), Err(as_count));
            assert_eq!(check(kind, &with(&start, &[1], number)), Err(17));
        }
        let clock = check(Kind::New, &with(&[0; 68], number, &[1, 0]));
        let move_number = check(Kind::New, &with(&[0; 69], number, &[0]));
        assert_eq!((clock.err(), move_number.err()), (as_counter, as_counter));
    }
    assert_eq!(check(Kind::New, &[0; 71]), Err(5), "a move number of 0");
    for kind in KINDS {
        // 28,671 and 28,672, and 2 as a code over 2^32.
        assert!(check(kind, &with(&kind.front(), &[1, 2], &[0xFF, 0xDF, 1])).is_ok());
        assert_eq!(check(kind, &with(&kind.front(), &[1, 2], &[0x80, 0xE0, 1])), Err(17));
        assert_eq!(check(kind, &with(&kind.front(), &[1], &[0x82, 0x80, 0x80, 0x80, 0x10, 0])), Err(17));
    }
}

#[test]
fn the_reader_gives_the_first_from_the_left() {
    for kind in KINDS {
        let start = kind.front();
        let mut bad_start = start.clone();
        bad_start[67] = 9;
        let (over, unknown) = ([0x81, 0x40], [1, 3]);
        assert_eq!(check(kind, &[&bad_start[..], &over].concat()), Err(5));
        assert_eq!(check(kind, &[&start[..], &over, &unknown].concat()), Err(13));
        assert_eq!(check(kind, &[&start[..], &unknown].concat()), Err(17));
        bad_start[20] = 0x80;
        assert_eq!(check(kind, &bad_start), Err(17));

        // A short part comes before all of it.
        for roll in [&start[..], &bad_start, &[], &all_kinds_by_hand(), &all_kinds_of_old()] {
            let mut part = vec![0xA5; ACTIONS_PART - 1];
            assert_eq!(kind.lent(roll, &mut part), Err(Error::PartTooShort));
            assert!(part.iter().all(|&byte| byte == 0xA5));
        }
    }
    // A clock that is over comes before a move number that is in no fewest groups, and either before a count that is over.
    let with = |counters: &[u8]| check(Kind::New, &[&[0; 68], counters, &[0x81, 0x40]].concat());
    assert_eq!(with(&[0x90, 0x4E, 0x80, 0]), Err(5));
    assert_eq!(with(&[0x80, 0, 0]), Err(17));
    assert_eq!(with(&[0, 0]), Err(5));
    assert_eq!(with(&[0, 1]), Err(13));
}

#[test]
fn the_last_move_is_refused_at_its_code() {
    for (kind, made) in KINDS.into_iter().flat_map(|kind| [0, 127, 128, 1_804, 16_383, 16_384, 28_671].map(|made| (kind, made))) {
        let moves = [vec![2], number_text(made)].concat().repeat(MAX_MOVES);
        let front: Vec<u8> = kind.front().into_iter().chain(number_text(MAX_MOVES as u64 + 1)).chain(moves).collect();
        for tail in [&[2][..], &[2, 0], &[2, 0x80, 0], &[2, 0x80, 1], &[2, 0x80, 0x80, 1]] {
            assert_eq!(check_as(kind, &[&front[..], tail].concat()), Err(13), "{tail:?}");
        }
        for tail in [&[][..], &[0x82, 0], &[3]] {
            assert_eq!(check_as(kind, &[&front[..], tail].concat()), Err(17), "{tail:?}");
        }
        assert!(check_as(kind, &[&front[..], &[4]].concat()).is_ok());
    }
}

#[test]
fn the_longest_roll() {
    let pair = [Action::MakeMove(Move::from_number(u64::from(MAX_MOVE)).unwrap()), Action::Resign(Color::Black)];
    let mut roll = Roll { start: counted(Board::default(), (9_999, 9_999)), actions: pair.repeat(MAX_MOVES) };
    let bytes = roll.to_bytes().unwrap();
    assert_eq!((bytes.len(), MAX_ROLL), (68 + 4 + 2 + 5 * MAX_MOVES, 20_554));
    assert_eq!(Roll::from_bytes(&bytes).as_ref(), Ok(&roll));
    for length in (0..bytes.len()).rev().step_by(101) {
        assert_eq!(check_as(Kind::New, &bytes[..length]), Err(17));
    }
    // The longest of old has no counters; written, it has one byte for each.
    let old = [&bytes[..68], &bytes[72..]].concat();
    let start = Board::default();
    assert_eq!(Roll::from_old_bytes(&old), Ok(Roll { start, ..roll.clone() }));
    assert_eq!((old.len(), check_as(Kind::Old, &old).is_ok()), (20_550, true));
    roll.actions[1] = pair[0];
    assert_eq!(roll.to_bytes(), Err(Error::LogFull));
    roll.actions[1] = pair[1];
    roll.actions.push(Action::AcceptDraw);
    assert_eq!(roll.to_bytes().unwrap_err().number(), 13);
}

#[test]
fn the_writers_refusals_in_their_order() {
    let (good, offer) = (empty(), [[2, 1, 0, 0]]);
    let bad = Record { full_moves: 0, ..good };
    let part = part_with(&offer);
    let unknown = part_with(&[[2, 2, 0, 0]]);
    let many = part_with(&[&[[2, 2, 0, 0]], &[[1, 0, 0, 0]; MAX_MOVES + 1][..]].concat());
    refuses(Error::PartTooShort, &bad, &part[1..], u64::MAX, 0);
    refuses(Error::OutOfRange, &bad, &many, u64::MAX, 0);
    for count in [MAX_ACTIONS as u64 + 1, 65_536, 65_537, 1 << 32, (1 << 32) + 1, u64::MAX] {
        refuses(Error::LogFull, &good, &unknown, count, 0);
        refuses(Error::LogFull, &good, &part, count, MAX_ROLL);
    }
    refuses(Error::LogFull, &good, &many, MAX_MOVES as u64 + 2, 0);
    refuses(Error::BadRoll, &good, &many, MAX_MOVES as u64 + 1, 0);
    refuses(Error::BadRoll, &good, &unknown, 1, 0);
    refuses(Error::BadRoll, &good, &part, 2, MAX_ROLL);
    for length in 0..72 {
        refuses(Error::OutputTooShort { needed: 72 }, &good, &part, 1, length);
    }
    assert_eq!(lent::roll_write(&good, &part, 1, &mut [0; 72]), Ok(72));
    assert_eq!(lent::roll_write(&good, &unknown, 0, &mut [0; 72]), Ok(71));
    for (half_moves, full_moves, needed) in [(127, 127, 71), (128, 127, 72), (127, 128, 72), (9_999, 9_999, 73)] {
        let record = Record { half_moves, full_moves, ..good };
        refuses(Error::OutputTooShort { needed }, &record, &part, 0, needed - 1);
        assert_eq!(lent::roll_write(&record, &part, 0, &mut vec![0; needed]), Ok(needed));
    }
}

#[test]
fn a_start_out_of_range_in_any_number() {
    for record in out_of_range(empty()) {
        refuses(Error::OutOfRange, &record, &part_with(&[]), 0, MAX_ROLL);
    }
}

/// 13 is told before 17: a move's kind counts, whatever else its bytes say, and no other kind does.
#[test]
fn moves_are_counted_by_their_kind() {
    let most = [[1, 0, 0, 0]; MAX_MOVES];
    let lasts = [[1, 1, 0, 0], [1, 0, 0, 112], [1, 0, 0, 0]].map(|last| (last, Error::LogFull));
    for (last, want) in lasts.into_iter().chain([([0, 1, 1, 1], Error::BadRoll), ([2, 2, 1, 1], Error::BadRoll)]) {
        refuses(want, &empty(), &part_with(&[&most[..], &[last]].concat()), MAX_MOVES as u64 + 1, MAX_ROLL);
        refuses(want, &empty(), &part_with(&[&[last], &most[..]].concat()), MAX_MOVES as u64 + 1, MAX_ROLL);
    }
    assert_eq!(lent::roll_write(&empty(), &part_with(&most), MAX_MOVES as u64, &mut [0; MAX_ROLL]), Ok(70 + 2 + 2 * MAX_MOVES));
}

#[test]
fn bytes_that_are_no_action() {
    let fields = [[0, 0, 0, 0], [6, 0, 0, 0], [255, 0, 0, 0], [1, 1, 0, 0], [1, 0, 0, 112], [2, 2, 0, 0], [2, 0, 1, 0]];
    let more = [[3, 1, 0, 0], [3, 0, 0, 1], [4, 1, 0, 0], [4, 0, 1, 0], [5, 2, 0, 0], [5, 1, 0, 1], [5, 255, 0, 0]];
    for bytes in fields.into_iter().chain(more) {
        refuses(Error::BadRoll, &empty(), &part_with(&[[3, 0, 0, 0], bytes]), 2, MAX_ROLL);
        assert_eq!(lent::roll_write(&empty(), &part_with(&[[3, 0, 0, 0], bytes]), 1, &mut [0; MAX_ROLL]), Ok(72));
    }
}
