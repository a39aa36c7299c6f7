//! The fifty-move count as the Laws have it (document 02, order 5), and what both rulings rest on.

use crate::common::{after, moves};
use menkhodur::lent::CLAIM_COUNT;
use menkhodur::{Board, CastleRights, Color, Error, GameResult, Log, Move, Position, Reason, Ruling};

const ROOKS: &str = "h1g1 h8g8 g1h1 g8h8";

/// The board after a move, without the rights of the square that it leaves.
fn stepped(board: Board, made: Move) -> Board {
    let next = after(board, made);
    let lost = |color: Color| next.get_castle_rights(color).remove(CastleRights::square_to_castle_rights(color, made.get_source()));
    next.castle_rights(Color::White, lost(Color::White)).castle_rights(Color::Black, lost(Color::Black))
}

/// Moves on, each position with one list or, if `fresh`, with one that no other position has.
fn go_on(log: &mut Log, texts: &str, fresh: bool) {
    for made in moves(texts) {
        let turn = u64::from(fresh) * (log.counts().moves + 1);
        let board = stepped(log.current_position(), made);
        log.make_move(made, &Position { board, in_check: false, list: &listed(turn) }).unwrap();
    }
}

fn listed(turn: u64) -> Vec<Move> {
    [moves("e1f1 f1e1 e8f8 f8e8 h2h3 h1h8"), moves(ROOKS), vec![Move::from_number(20_480 + turn).unwrap()]].concat()
}

/// Kings and rooks with the rights that a FEN text says, and a pawn.
fn started(rights: &str) -> Log {
    let board = Board::from_fen(format!("4k2r/8/8/8/8/8/7P/4K2R w {rights} -")).unwrap();
    Log::start(&Position { board, in_check: false, list: &listed(0) }).unwrap()
}

/// The moves of the rooks from one number of moves to another: from 0 on they stand at home.
fn rooks(from: usize, to: usize) -> String {
    moves(ROOKS).iter().cycle().take(to).skip(from).map(|made| format!("{made} ")).collect()
}

/// Counts, equal positions and claims of a log, and that the two queries say the same as its ruling.
fn shown(log: &Log) -> ([usize; 3], [Option<usize>; 2], [Option<Reason>; 2]) {
    let ruling = log.ruling();
    assert_eq!(log.can_declare_draw(), ruling.claim.is_some());
    assert_eq!(log.can_claim_by_laws(), ruling.laws_claim.is_some());
    assert_eq!((ruling.moves as u64, ruling.result), (log.counts().moves, log.result()));
    ([ruling.count, ruling.laws_count, ruling.equals], ruling.earliest, [ruling.claim, ruling.laws_claim])
}

#[test]
fn rights_that_are_lost_empty_the_count_and_not_that_of_the_laws() {
    let mut log = started("Kk");
    assert_eq!(shown(&log), ([0, 0, 0], [None; 2], [None; 2]));
    go_on(&mut log, "h1g1", false);
    assert_eq!(shown(&log), ([0, 1, 0], [None; 2], [None; 2]));
    go_on(&mut log, "h8g8", false);
    assert_eq!(shown(&log), ([0, 2, 0], [None; 2], [None; 2]));
    go_on(&mut log, "g1h1 g8h8", false);
    // The men stand as at the start, but the rights are gone.
    assert_eq!(shown(&log), ([2, 4, 0], [None; 2], [None; 2]));
    go_on(&mut log, "h1g1 h8g8", false);
    assert_eq!(shown(&log), ([4, 6, 1], [Some(2), None], [None; 2]));

    let mut king = started("Kk");
    go_on(&mut king, "e1f1 e8f8 f1e1", false);
    assert_eq!(shown(&king), ([1, 3, 0], [None; 2], [None; 2]));
}

#[test]
fn rights_do_not_come_back() {
    // A log of before version 9 could hold this: the position after move 4 equals the start, with two changes of rights between them.
    let mut log = started("-");
    go_on(&mut log, "h1g1", false);
    let made = moves("h8g8")[0];
    let board = stepped(log.current_position(), made).castle_rights(Color::White, CastleRights::KingSide);
    let before = log.clone();
    assert_eq!(log.make_move(made, &Position { board, in_check: false, list: &listed(0) }), Err(Error::WrongRecord));
    assert!(log == before);
}

#[test]
fn a_pawn_move_and_a_capture_empty_both_counts() {
    for emptying in ["h2h3", "h1h8"] {
        let mut log = started("-");
        go_on(&mut log, ROOKS, false);
        assert_eq!(shown(&log), ([4, 4, 1], [Some(0), None], [None; 2]));
        go_on(&mut log, emptying, false);
        assert_eq!(shown(&log), ([0, 0, 0], [None; 2], [None; 2]));
        go_on(&mut log, "e8f8", false);
        assert_eq!(shown(&log), ([1, 1, 0], [None; 2], [None; 2]));
    }
}

#[test]
fn a_hundred_moves_with_a_right_lost_among_them() {
    // White loses a right with the first move and black with the second, so that two moves are missing in document 01's count.
    for count in 97..=104 {
        let mut log = started("Kk");
        go_on(&mut log, &rooks(0, count), true);
        let claim = |count: usize| (count >= CLAIM_COUNT).then_some(Reason::Count);
        assert_eq!(shown(&log), ([count - 2, count, 0], [None; 2], [claim(count - 2), claim(count)]), "{count} moves");
    }
}

#[test]
fn the_log_declares_by_its_own_count() {
    let mut log = started("Kk");
    go_on(&mut log, &rooks(0, 101), true);
    assert!(log.can_claim_by_laws());
    assert_eq!(log.declare_draw(), Err(Error::NoClaim));
    go_on(&mut log, "h8g8", true);
    assert_eq!(log.declare_draw(), Ok(()));
}

#[test]
fn equal_positions_by_their_numbers() {
    let mut log = started("-");
    let by = Some(Reason::EqualPositions);
    for (to, equals, earliest, claim) in [
        (4, 1, [Some(0), None], None),
        (8, 2, [Some(0), Some(4)], by),
        (12, 3, [Some(0), Some(4)], by),
        (13, 3, [Some(1), Some(5)], by),
        (19, 4, [Some(3), Some(7)], by),
    ] {
        // An offer is an action and no move: it shifts no number.
        log.offer_draw(Color::White).unwrap();
        let from = log.counts().moves as usize;
        go_on(&mut log, &rooks(from, to), false);
        assert_eq!(shown(&log), ([to, to, equals], earliest, [claim; 2]));
        let last = log.positions().next_back().unwrap();
        for earlier in log.ruling().earliest.into_iter().flatten().map(|index| log.positions().nth(index).unwrap()) {
            assert_eq!((earlier.board.numbers(), earlier.list), (last.board.numbers(), last.list));
            assert_ne!(earlier.board, last.board, "each move has changed the counters");
        }
    }
}

#[test]
fn both_reasons_at_once() {
    let mut log = started("-");
    go_on(&mut log, &rooks(0, 99), false);
    assert_eq!(shown(&log).2, [Some(Reason::EqualPositions); 2]);
    go_on(&mut log, "g8h8", false);
    assert_eq!(shown(&log), ([100, 100, 25], [Some(0), Some(4)], [Some(Reason::Both); 2]));

    let mut log = started("Kk");
    go_on(&mut log, &rooks(0, 100), false);
    assert_eq!(shown(&log), ([98, 100, 24], [Some(4), Some(8)], [Some(Reason::EqualPositions), Some(Reason::Both)]));
}

#[test]
fn an_ended_game_shows_its_counts_and_no_claim() {
    let mut log = started("-");
    go_on(&mut log, &rooks(0, 100), false);
    for ended in [Log::declare_draw, |log: &mut Log| log.resign(Color::Black)] {
        let mut log = log.clone();
        ended(&mut log).unwrap();
        assert_eq!(shown(&log), ([100, 100, 25], [Some(0), Some(4)], [None; 2]));
    }
    let board = stepped(log.current_position(), moves("h1g1")[0]);
    log.make_move(moves("h1g1")[0], &Position { board, in_check: false, list: &[] }).unwrap();
    assert_eq!(shown(&log), ([101, 101, 0], [None; 2], [None; 2]));
    assert_eq!(log.ruling().result, Some(GameResult::Stalemate));
}

#[test]
fn reasons() {
    let words = [
        (Reason::Count, "by the count"),
        (Reason::EqualPositions, "by equal positions"),
        (Reason::Both, "by the count and by equal positions"),
    ];
    for (number, (reason, words)) in (1..).zip(words) {
        assert_eq!((reason.number(), reason.to_string().as_str()), (number, words));
    }
}

/// What a ruling says first, and what it says of positions and counts.
fn words(ruling: &Ruling) -> (String, String) {
    let text = ruling.to_string();
    let (verdict, rest) = text.split_once(": ").unwrap();
    (verdict.to_owned(), rest.to_owned())
}

#[test]
fn verdicts() {
    let verdict = |claim: Option<Reason>, laws_claim: Option<Reason>| words(&Ruling { claim, laws_claim, ..started("-").ruling() }).0;
    let (count, equal, both) = (Some(Reason::Count), Some(Reason::EqualPositions), Some(Reason::Both));
    assert_eq!(verdict(None, None), "no draw may be claimed");
    assert_eq!(verdict(count, count), "a draw may be claimed by the count");
    assert_eq!(verdict(equal, equal), "a draw may be claimed by equal positions");
    assert_eq!(verdict(both, both), "a draw may be claimed by the count and by equal positions");
    assert_eq!(verdict(equal, both), "a draw may be claimed by equal positions, and under the Laws by the count and by equal positions");
    assert_eq!(verdict(None, count), "a draw may be claimed only under the Laws, by the count, and cannot be declared in the log");
    // The archive gives no such ruling, but whoever makes one reads what it says.
    assert_eq!(verdict(count, None), "a draw may be declared only in the log, by the count, and cannot be claimed under the Laws");
    let mut log = started("-");
    log.resign(Color::Black).unwrap();
    assert_eq!(words(&log.ruling()).0, "no draw may be claimed, for the game has ended (black resigns)");
}

#[test]
fn positions_and_counts_in_words() {
    let mut log = started("Kk");
    let said = |log: &Log| words(&log.ruling()).1;
    let run = |count: &str| format!("; the run has {count} of either side without a pawn move, a capture or a change of castling rights");
    let laws = |count: usize| format!("; article 9.3 counts {count} without a pawn move or a capture");
    let all = |positions: &str, count: &str, by_laws: usize| format!("{positions}{}{}", run(count), laws(by_laws));
    assert_eq!(said(&log), all("the position at the start did not stand before in its run", "0 moves", 0));
    go_on(&mut log, "h1g1 h8g8 g1h1", false);
    assert_eq!(said(&log), all("the position after move 3 of the log did not stand before in its run", "1 move", 3));
    go_on(&mut log, "g8h8 h1g1 h8g8", false);
    assert_eq!(said(&log), all("the position after move 6 of the log stood once before in its run, after move 2", "4 moves", 6));
    go_on(&mut log, "g1h1 g8h8 h1g1 h8g8", false);
    assert_eq!(
        said(&log),
        all("the position after move 10 of the log stood twice before in its run, after move 2 and after move 6", "8 moves", 10)
    );
    go_on(&mut log, "g1h1 g8h8 h1g1 h8g8", false);
    let three = "the position after move 14 of the log stood 3 times before in its run, first after move 2 and then after move 6";
    assert_eq!(said(&log), all(three, "12 moves", 14));

    let mut log = started("-");
    go_on(&mut log, ROOKS, false);
    assert_eq!(said(&log), all("the position after move 4 of the log stood once before in its run, at the start", "4 moves", 4));
    go_on(&mut log, &rooks(0, 8), false);
    assert!(
        said(&log).starts_with(
            "the position after move 12 of the log stood 3 times before in its run, first at the start and then after move 4; "
        )
    );
}
