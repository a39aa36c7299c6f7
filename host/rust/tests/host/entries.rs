//! The actions and positions of a log, read back as typed values.

use crate::common::{after, moves, play};
use menkhodur::lent::MAX_MOVES;
use menkhodur::{Action, Board, Color, Log, Move, Position};

/// A start and three moves, with lists of 255, 1, 2 and no moves, in check every other time.
fn given() -> Vec<(Board, bool, Vec<Move>)> {
    let made = moves("b1c3 b8c6 c3b1");
    let mut boards = vec![Board::default()];
    for &made in &made {
        boards.push(after(boards[boards.len() - 1], made));
    }
    let long = (0..254).map(|number| Move::from_number(28_671 - number).unwrap()).chain([made[0]]).collect();
    let lists = [long, vec![made[1]], vec![made[2], made[0]], vec![]];
    boards.into_iter().zip(lists).enumerate().map(|(turn, (board, list))| (board, turn % 2 == 1, list)).collect()
}

fn lent(given: &[(Board, bool, Vec<Move>)]) -> Vec<Position<'_>> {
    given.iter().map(|(board, in_check, list)| Position { board: *board, in_check: *in_check, list }).collect()
}

fn logged(positions: &[Position<'_>]) -> Log {
    let mut log = Log::start(&positions[0]).unwrap();
    for (made, next) in moves("b1c3 b8c6 c3b1").into_iter().zip(&positions[1..]) {
        log.make_move(made, next).unwrap();
        if log.result().is_none() {
            log.offer_draw(Color::White).unwrap();
        }
    }
    log
}

#[test]
fn positions_are_those_that_were_given() {
    let given = given();
    let positions = lent(&given);
    let log = logged(&positions);
    assert_eq!(log.positions().collect::<Vec<_>>(), positions);
    let last = positions[3];
    assert_eq!((log.current_position(), log.in_check(), log.current_moves()), (last.board, last.in_check, last.list));

    // A log from stored bytes, wherever they lie.
    let stored = [&[0], log.used_positions()].concat();
    let loaded = Log::from_parts(log.used_actions(), &stored[1..], log.counts()).unwrap();
    assert!(loaded.positions().eq(positions));
}

#[test]
fn both_iterate_from_either_end_and_know_their_length() {
    let given = given();
    let positions = lent(&given);
    let log = logged(&positions);
    let mut left = log.positions();
    assert_eq!((left.len(), left.size_hint()), (4, (4, Some(4))));
    assert_eq!((left.next(), left.next_back(), left.len()), (Some(positions[0]), Some(positions[3]), 2));
    assert!(left.clone().rev().eq([positions[2], positions[1]]));
    assert_eq!((left.nth(1), left.next(), left.next(), left.next_back()), (Some(positions[2]), None, None, None));
    assert_eq!((log.positions().nth(3), log.positions().nth(4)), (Some(positions[3]), None));

    let actions: Vec<Action> = log.actions().collect();
    assert_eq!((log.actions().len(), actions.len()), (5, 5));
    assert_eq!(actions[..2], [Action::MakeMove(moves("b1c3")[0]), Action::OfferDraw(Color::White)]);
    assert!(log.actions().rev().eq(actions.iter().rev().copied()));
    assert_eq!((log.actions().nth(4), log.actions().nth(5)), (Some(Action::MakeMove(moves("c3b1")[0])), None));
}

#[test]
fn a_start_is_a_position_and_no_action() {
    let log = play(Board::default(), "", "", "b1c3");
    assert_eq!((log.positions().len(), log.actions().len()), (1, 0));
    assert_eq!(format!("{:?}", log.actions()), "[]");
    let shown = format!("{:?}", log.positions());
    assert!(shown.starts_with("[Position { board: Board(rnbqkbnr/") && shown.ends_with("list: [Move(b1c3)] }]"), "{shown}");
}

#[test]
fn a_full_log_gives_every_position() {
    let log = play(Board::default(), &"b1c3 b8c6 c3b1 c6b8 ".repeat(MAX_MOVES / 4), "", "b1c3");
    assert_eq!((log.positions().len(), log.actions().len()), (MAX_MOVES + 1, MAX_MOVES));
    let mut board = Board::default();
    for (position, action) in log.positions().zip(log.actions()) {
        let Action::MakeMove(made) = action else { panic!("{action:?}") };
        assert_eq!(position, Position { board, in_check: false, list: &[made] });
        board = after(board, made);
    }
    assert_eq!(log.positions().next_back().unwrap().board, board);
}

#[test]
fn stored_positions_are_those_that_were_given_and_nothing_past_the_part_is() {
    let given = given();
    let positions = lent(&given);
    let log = logged(&positions);
    let (actions, bytes) = (log.used_actions(), log.used_positions());
    for (moves, position) in positions.iter().enumerate() {
        let stored = menkhodur::lent::stored_position(bytes, moves).unwrap();
        let numbers: Vec<u16> = position.list.iter().map(|made| made.number()).collect();
        assert_eq!((stored.record, stored.in_check, stored.list), (*position.board.record(), u8::from(position.in_check), numbers));
    }
    assert_eq!(menkhodur::lent::stored_position(bytes, positions.len()), None);
    assert_eq!(menkhodur::lent::stored_position(&bytes[..bytes.len() - 1], positions.len() - 1), None);
    let counted: Vec<u64> = (0..=7).map(|count| menkhodur::lent::moves_among(actions, count)).collect();
    assert_eq!(counted, [0, 1, 1, 2, 2, 3, 3, 3]);
}
