//! Endings, offers and claims.

use crate::common::{after, moves, play};
use menkhodur::{Action, Board, CastleRights, Color, Error, GameResult, Log, Move, Position};

const OUT_AND_BACK: &str = "b1c3 b8c6 c3b1 c6b8 ";

/// The start position each time with one list, so that turns are equal.
fn turns(count: usize) -> Log {
    let board = Board::default();
    let all = moves(OUT_AND_BACK);
    let mut log = Log::start(&Position { board, in_check: false, list: &all }).unwrap();
    let mut board = board;
    for &made in all.iter().cycle().take(count) {
        board = after(board, made);
        log.make_move(made, &Position { board, in_check: false, list: &all }).unwrap();
    }
    log
}

#[test]
fn every_result() {
    let start = |color: Color, in_check: bool| {
        let board = Board::new().side_to_move(color);
        Log::start(&Position { board, in_check, list: &[] }).unwrap().result()
    };
    assert_eq!(start(Color::Black, true), Some(GameResult::WhiteCheckmates));
    assert_eq!(start(Color::White, true), Some(GameResult::BlackCheckmates));
    assert_eq!(start(Color::White, false), Some(GameResult::Stalemate));

    let mut logs: Vec<Log> = vec![turns(0); 3];
    assert_eq!(logs[0].result(), None);
    logs[0].resign(Color::White).unwrap();
    logs[1].resign(Color::Black).unwrap();
    logs[2].offer_draw(Color::Black).unwrap();
    logs[2].accept_draw().unwrap();
    let results: Vec<_> = logs.iter().map(|log| log.result().unwrap()).collect();
    assert_eq!(results, [GameResult::WhiteResigns, GameResult::BlackResigns, GameResult::DrawAccepted]);

    let mut log = turns(8);
    log.declare_draw().unwrap();
    assert_eq!(log.result(), Some(GameResult::DrawDeclared));
}

#[test]
fn a_game_that_ends_in_mate() {
    let log = play(Board::default(), "f2f3 e7e5 g2g4", "", "d8h4");
    let board = after(log.current_position(), moves("d8h4")[0]);
    let mut log = log;
    log.make_move(moves("d8h4")[0], &Position { board, in_check: true, list: &[] }).unwrap();
    assert_eq!(log.result(), Some(GameResult::BlackCheckmates));
    assert_eq!(log.current_position(), board);
    assert_eq!((log.side_to_move(), log.in_check(), log.current_moves()), (Color::White, true, &[][..]));
}

#[test]
fn an_offer_stands_as_the_last_action_or_before_the_opponents_reply() {
    let white_moves = |log: &mut Log| {
        let made = moves("b1c3")[0];
        let board = after(log.current_position(), made);
        log.make_move(made, &Position { board, in_check: false, list: &moves("b8c6") }).unwrap();
    };
    let mut own = turns(0);
    own.offer_draw(Color::White).unwrap();
    white_moves(&mut own);
    assert_eq!(own.accept_draw(), Ok(()));

    let mut opponents = turns(0);
    opponents.offer_draw(Color::Black).unwrap();
    white_moves(&mut opponents);
    assert_eq!(opponents.accept_draw(), Err(Error::NoDrawOffer));

    for color in [Color::White, Color::Black] {
        let mut last = turns(0);
        last.offer_draw(color).unwrap();
        assert_eq!(last.accept_draw(), Ok(()));
    }
}

#[test]
fn a_third_equal_position_is_a_claim() {
    for (count, claim) in [(3, false), (4, false), (7, false), (8, true), (9, true)] {
        assert_eq!(turns(count).can_declare_draw(), claim, "{count} moves");
    }
    let mut log = turns(8);
    let pawn = moves("e2e4");
    assert_eq!(log.make_move(pawn[0], &Position { board: Board::default(), in_check: false, list: &pawn }), Err(Error::MoveNotListed));
    assert_eq!(log.declare_draw(), Ok(()));
    assert_eq!(log.actions().next_back(), Some(Action::DeclareDraw));
}

/// A run of knight moves in which no two lists are equal, so that only the count can make a claim.
fn reversible(count: u16) -> Log {
    let all = moves(OUT_AND_BACK);
    let listed = |turn: u16| [all.clone(), moves("a8b8"), vec![Move::from_number(u64::from(turn)).unwrap()]].concat();
    let mut board = Board::default();
    let mut log = Log::start(&Position { board, in_check: false, list: &listed(0) }).unwrap();
    for (turn, &made) in (1..=count).zip(all.iter().cycle()) {
        board = after(board, made);
        log.make_move(made, &Position { board, in_check: false, list: &listed(turn) }).unwrap();
    }
    log
}

#[test]
fn a_hundred_reversible_moves_are_a_claim() {
    assert!(!reversible(99).can_declare_draw());
    let mut log = reversible(100);
    assert!(log.can_declare_draw());
    assert_eq!(log.declare_draw(), Ok(()));
    assert!(!log.can_declare_draw());
}

#[test]
fn a_right_that_is_lost_empties_the_count() {
    let mut log = reversible(99);
    // The hundredth move is a rook's, and loses a right.
    let rook = moves("a8b8")[0];
    let board = log.current_position();
    assert_eq!((board.get_side_to_move(), log.counts().moves), (Color::Black, 99));
    let next = after(board, rook).castle_rights(Color::Black, CastleRights::KingSide);
    log.make_move(rook, &Position { board: next, in_check: false, list: &moves("b1c3") }).unwrap();
    assert_eq!(log.counts().moves, 100);
    assert!(!log.can_declare_draw());
}

#[test]
fn actions_come_back_in_order() {
    let mut log = play(Board::default(), "b1c3", "", "b8c6");
    log.offer_draw(Color::White).unwrap();
    log.accept_draw().unwrap();
    let actions: Vec<Action> = log.actions().collect();
    assert_eq!(actions, [Action::MakeMove(moves("b1c3")[0]), Action::OfferDraw(Color::White), Action::AcceptDraw]);
    let mut log = turns(0);
    log.resign(Color::Black).unwrap();
    assert_eq!(log.actions().collect::<Vec<_>>(), [Action::Resign(Color::Black)]);
}

#[test]
fn a_promotion_and_a_capture_are_kept_whole() {
    let board = Board::from_fen("r7/1P6/8/8/8/8/8/8 w - -").unwrap();
    let log = play(board, "b7a8n", "", "");
    assert_eq!(log.current_position().to_fen(), "N7/8/8/8/8/8/8/8 b - - 0 1");
    assert_eq!(log.actions().next(), Some(Action::MakeMove(moves("b7a8n")[0])));
    assert_eq!(log.result(), Some(GameResult::Stalemate));
}
