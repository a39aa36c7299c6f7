//! Storing a log and loading it again.

use crate::common::{Numbers, Parts, moves, play};
use menkhodur::lent::{ACTIONS_PART, POSITION_BYTES, POSITIONS_PART};
use menkhodur::{Board, Color, Counts, Error, Log, Position};

fn game() -> Log {
    let mut log = play(Board::default(), "b1c3 b8c6 c3b1 c6b8 e2e4", "g1f3", "e7e5 g8f6");
    log.offer_draw(Color::White).unwrap();
    log
}

#[test]
fn used_bytes_are_those_of_the_counts() {
    let log = game();
    assert_eq!(log.counts(), Counts { actions: 6, moves: 5 });
    assert_eq!((log.used_actions().len(), log.used_positions().len()), (6 * 4, 6 * 584));
}

#[test]
fn a_stored_log_comes_back() {
    let log = game();
    let loaded = Log::from_parts(log.used_actions(), log.used_positions(), log.counts()).unwrap();
    assert!(loaded == log);
    assert_eq!(loaded.current_moves(), moves("e7e5 g8f6"));
    let mut loaded = loaded;
    loaded.accept_draw().unwrap();
    assert_eq!(log.result(), None);
    assert!(loaded != log);
}

#[test]
fn what_is_past_the_used_bytes_is_not_looked_at() {
    let log = game();
    let parts = Parts::of(&log);
    assert_eq!((parts.actions.len(), parts.positions.len()), (ACTIONS_PART, POSITIONS_PART));
    assert_eq!(Log::from_parts(&parts.actions, &parts.positions, parts.counts), Ok(log));
}

#[test]
fn fewer_bytes_than_the_counts_use_are_refused() {
    let log = game();
    let (actions, positions) = (log.used_actions(), log.used_positions());
    assert_eq!(Log::from_parts(&actions[1..], positions, log.counts()), Err(Error::PartTooShort));
    assert_eq!(Log::from_parts(actions, &positions[1..], log.counts()), Err(Error::PartTooShort));
    assert_eq!(Log::from_parts(&[], &[], Counts::default()), Err(Error::PartTooShort));
    let over = Counts { actions: u64::MAX, moves: u64::MAX };
    assert_eq!(Log::from_parts(actions, positions, over), Err(Error::PartTooShort));
    assert_eq!(Log::from_parts(&[0; ACTIONS_PART], &vec![0; POSITIONS_PART], over), Err(Error::LogNotGood));
}

/// After a black move on an empty board the position has zeros but for its counters, and nothing but zeros behind them: bytes that are
/// missing must not become those.
#[test]
fn missing_bytes_are_not_taken_for_zeros() {
    let board = Board::new().side_to_move(Color::Black);
    let list = moves("b8c6");
    let mut log = Log::start(&Position { board, in_check: false, list: &list }).unwrap();
    log.play(list[0], false, &[]).unwrap();
    let (actions, positions) = (log.used_actions(), log.used_positions());
    let counters_end = POSITION_BYTES + 72;
    assert!(positions[counters_end..].iter().all(|&byte| byte == 0));
    for length in [POSITION_BYTES, counters_end, positions.len() - 1] {
        assert_eq!(Log::from_parts(actions, &positions[..length], log.counts()), Err(Error::PartTooShort));
    }
    assert_eq!(Log::from_parts(actions, positions, log.counts()), Ok(log.clone()));
}

/// Whatever the bytes are, loading ends in a refusal or in a log that can be asked and stored again.
#[test]
fn damaged_bytes_are_refused_or_are_another_good_log() {
    let log = game();
    let (mut refused, mut loaded) = (0, 0);
    let mut numbers = Numbers(3);
    for _ in 0..2_000 {
        let (mut actions, mut positions) = (log.used_actions().to_vec(), log.used_positions().to_vec());
        let place = numbers.below((actions.len() + positions.len()) as u64) as usize;
        let byte = numbers.below(256) as u8;
        *actions.iter_mut().chain(positions.iter_mut()).nth(place).unwrap() = byte;
        match Log::from_parts(&actions, &positions, log.counts()) {
            Ok(other) => {
                loaded += 1;
                assert_eq!((other.used_actions(), other.used_positions()), (&actions[..], &positions[..]));
                let _ = (other.result(), other.can_declare_draw(), other.actions().count(), other.positions().count());
            }
            Err(error) => {
                refused += 1;
                assert_eq!(error, Error::LogNotGood);
            }
        }
    }
    assert!(refused > 1_000 && loaded > 0, "{refused} refused, {loaded} loaded");
}

#[test]
fn a_log_is_shown_in_short() {
    let shown = format!("{:?}", game());
    assert!(shown.starts_with("Log { counts: Counts { actions: 6, moves: 5 }"), "{shown}");
    assert!(shown.len() < 200, "{shown}");
}
