//! The board after a move (document 02, order 9), by rows from the order's sentences, and logs that ask for it. Its counters, which each
//! row has by their rule, are tried in `counters.rs`.

use crate::common::{Numbers, Parts, counted, counters_after, moves, out_of_range, play, random_record};
use menkhodur::lent::{self, Given, POSITION_BYTES};
use menkhodur::{Board, CastleRights, Color, Counts, Error, File, Log, MAX_MOVE, Move, Position, Square};

/// Asks for the FEN after each move, of both layers.
fn check(rows: &[(&str, &str, &str)]) {
    for &(before, text, want) in rows {
        let (board, made) = (Board::from_fen(before).unwrap(), Move::from_text(text).unwrap());
        let number = u64::from(made.number());
        let want = counted(Board::from_fen(want).unwrap(), counters_after(board.record(), number));
        assert_eq!(board.after(made), want, "{before} {text}");
        assert_eq!(lent::board_after(board.record(), number).as_ref(), Ok(want.record()), "{before} {text}");
    }
}

#[test]
fn a_man_moves_captures_or_is_promoted() {
    check(&[
        ("8/8/8/8/8/8/8/1N6 w - -", "b1c3", "8/8/8/8/8/2N5/8/8 b - -"),
        ("8/8/8/8/8/2p5/8/1N6 w - -", "b1c3", "8/8/8/8/8/2N5/8/8 b - -"),
        ("8/8/8/8/8/2P5/8/1N6 w - -", "b1c3", "8/8/8/8/8/2N5/8/8 b - -"),
        ("8/4P3/8/8/8/8/8/8 w - -", "e7e8q", "4Q3/8/8/8/8/8/8/8 b - -"),
        ("3r4/4P3/8/8/8/8/8/8 w - -", "e7d8n", "3N4/8/8/8/8/8/8/8 b - -"),
        ("8/8/8/8/8/8/4p3/8 b - -", "e2e1r", "8/8/8/8/8/8/8/4r3 w - -"),
        // Whatever man moves, and on any rank, the man set down is the piece of the promotion in his colour.
        ("8/8/8/8/8/8/8/1N6 w - -", "b1c3b", "8/8/8/8/8/2B5/8/8 b - -"),
        ("8/8/8/8/8/8/8/4k3 w - -", "e1e2q", "8/8/8/8/8/8/4q3/8 b - -"),
        // An empty source leaves both squares empty, with a promotion too.
        ("8/8/8/8/8/2p5/8/8 w - -", "b1c3", "8/8/8/8/8/8/8/8 b - -"),
        ("8/8/8/8/8/2p5/8/8 b - -", "b1c3q", "8/8/8/8/8/8/8/8 w - -"),
        // A man that stays where he is.
        ("8/8/8/8/8/8/8/1N6 w - -", "b1b1", "8/8/8/8/8/8/8/1N6 b - -"),
        ("8/8/8/8/8/8/8/1N6 w - -", "b1b1q", "8/8/8/8/8/8/8/1Q6 b - -"),
    ]);
}

#[test]
fn promotions_that_no_text_has() {
    let board = Board::from_fen("8/4p3/8/8/8/8/8/8 w - -").unwrap();
    for (promotion, want) in [(1, "4p3/8/8/8/8/8/8/8 b - -"), (6, "4k3/8/8/8/8/8/8/8 b - -")] {
        let made = Move::from_number(52 + 64 * 60 + 4_096 * promotion).unwrap();
        assert_eq!(Ok(board.after(made)), Board::from_fen(want));
    }
}

#[test]
fn castling_takes_what_stood_in_the_corner() {
    check(&[
        ("8/8/8/8/8/8/8/R3K2R w KQ -", "e1g1", "8/8/8/8/8/8/8/R4RK1 b - -"),
        ("8/8/8/8/8/8/8/R3K2R w KQ -", "e1c1", "8/8/8/8/8/8/8/2KR3R b - -"),
        ("r3k2r/8/8/8/8/8/8/8 b kq -", "e8g8", "r4rk1/8/8/8/8/8/8/8 w - -"),
        ("r3k2r/8/8/8/8/8/8/8 b kq -", "e8c8", "2kr3r/8/8/8/8/8/8/8 w - -"),
        // Without rights, on another rank, with another man in the corner: a king that goes two files along its rank.
        ("8/8/8/8/4K2n/8/8/8 b - -", "e4g4", "8/8/8/8/5nK1/8/8/8 w - -"),
        // An empty corner empties the square passed over.
        ("8/8/8/8/8/8/8/4KQ2 w - -", "e1g1", "8/8/8/8/8/8/8/6K1 b - -"),
        ("8/8/8/8/8/8/8/3QK3 w - -", "e1c1", "8/8/8/8/8/8/8/2K5 b - -"),
        // The side is the one that the king goes to; the king that comes to the corner itself is set down last.
        ("8/8/8/8/8/8/8/R1K4B w - -", "c1e1", "8/8/8/8/8/8/8/R2BK3 b - -"),
        ("8/8/8/8/8/8/8/5K1N w - -", "f1h1", "8/8/8/8/8/8/8/6NK b - -"),
        ("8/8/8/8/8/8/8/N1K5 w - -", "c1a1", "8/8/8/8/8/8/8/KN6 b - -"),
        // A king that is promoted castles too; one that goes two ranks, three files or leaves its rank does not.
        ("8/8/8/8/8/8/8/4K2R w - -", "e1g1q", "8/8/8/8/8/8/8/5RQ1 b - -"),
        ("8/8/8/8/8/8/8/4K2R w - -", "e1e3", "8/8/8/8/8/4K3/8/7R b - -"),
        ("8/8/8/8/8/8/8/4K2R w - -", "e1h1", "8/8/8/8/8/8/8/7K b - -"),
        ("8/8/8/8/8/8/8/4K2R w - -", "e1g2", "8/8/8/8/8/8/6K1/7R b - -"),
        ("7R/6K1/8/8/8/8/8/8 w - -", "g7a8", "K6R/8/8/8/8/8/8/8 b - -"),
        ("8/8/8/8/8/8/8/4Q2R w - -", "e1g1", "8/8/8/8/8/8/8/6QR b - -"),
    ]);
}

#[test]
fn en_passant_clears_the_old_rank_and_new_file() {
    check(&[
        ("8/8/8/3Pp3/8/8/8/8 w - e6", "d5e6", "8/8/4P3/8/8/8/8/8 b - -"),
        ("8/8/8/8/3Pp3/8/8/8 b - d3", "e4d3", "8/8/8/8/8/3p4/8/8 w - -"),
        // Without an en passant file, of any man and by any step that changes files to an empty square.
        ("8/8/8/3PN3/8/8/8/8 b - -", "d5e6", "8/8/4P3/8/8/8/8/8 w - -"),
        ("8/8/8/3P3q/8/8/8/8 w - -", "d5h1", "8/8/8/8/8/8/8/7P b - -"),
        ("8/8/8/3P4/8/8/8/8 w - -", "d5e5", "8/8/8/4P3/8/8/8/8 b - -"),
        ("8/8/8/3Pp3/8/8/8/8 w - -", "d5e6q", "8/8/4Q3/8/8/8/8/8 b - -"),
        // An occupied destination is a capture, and another man or an unchanged file is no en passant.
        ("8/8/4n3/3Pp3/8/8/8/8 w - e6", "d5e6", "8/8/4P3/4p3/8/8/8/8 b - -"),
        ("8/8/8/3Bp3/8/8/8/8 w - e6", "d5e6", "8/8/4B3/4p3/8/8/8/8 b - -"),
        ("8/8/8/3Pp3/8/8/8/8 w - e6", "d5d6", "8/8/3P4/4p3/8/8/8/8 b - -"),
    ]);
}

#[test]
fn rights_of_both_sides_go_by_source_and_destination() {
    let full = Board::new().castle_rights(Color::White, CastleRights::Both).castle_rights(Color::Black, CastleRights::Both);
    for number in 0..4_096_u64 {
        let made = Move::from_number(number).unwrap();
        let after = full.after(made);
        for color in [Color::White, Color::Black] {
            let lost = |square: Square| CastleRights::square_to_castle_rights(color, square);
            let want = CastleRights::Both.remove(lost(made.get_source())).remove(lost(made.get_dest()));
            assert_eq!(after.get_castle_rights(color), want, "{made}");
        }
        assert_eq!((after.get_side_to_move(), after.en_passant_file()), (Color::Black, None));
    }
    check(&[
        ("r3k2r/8/8/8/8/8/8/R3K2R w KQkq -", "h1h8", "r3k2R/8/8/8/8/8/8/R3K3 b Qq -"),
        ("r3k2r/8/8/8/8/8/8/R3K2R b KQkq -", "a8a1", "4k2r/8/8/8/8/8/8/r3K2R w Kk -"),
        ("8/8/8/8/8/8/8/8 w KQkq -", "e1e8", "8/8/8/8/8/8/8/8 b - -"),
        ("8/8/8/8/8/8/8/8 w KQkq -", "d1d8", "8/8/8/8/8/8/8/8 b KQkq -"),
    ]);
}

#[test]
fn the_file_of_a_double_step_beside_an_enemy_pawn() {
    check(&[
        ("8/8/8/8/3p4/8/4P3/8 w - -", "e2e4", "8/8/8/8/3pP3/8/8/8 b - e3"),
        ("8/8/8/8/5p2/8/4P3/8 w - -", "e2e4", "8/8/8/8/4Pp2/8/8/8 b - e3"),
        ("8/3p4/8/4P3/8/8/8/8 b - -", "d7d5", "8/8/8/3pP3/8/8/8/8 w - d6"),
        ("8/8/8/8/8/8/4P3/8 w - a6", "e2e4", "8/8/8/8/4P3/8/8/8 b - -"),
        ("8/8/8/8/3P4/8/4P3/8 w - -", "e2e4", "8/8/8/8/3PP3/8/8/8 b - -"),
        ("8/8/8/8/3n4/8/4P3/8 w - -", "e2e4", "8/8/8/8/3nP3/8/8/8 b - -"),
        ("8/8/8/8/3p4/8/4P3/8 w - -", "e2e3", "8/8/8/8/3p4/4P3/8/8 b - -"),
        ("8/8/8/8/3p4/8/4R3/8 w - -", "e2e4", "8/8/8/8/3pR3/8/8/8 b - -"),
        // No board's edge is crossed.
        ("8/8/8/7p/8/p7/7P/8 w - -", "h2h4", "8/8/8/7p/7P/p7/8/8 b - -"),
        ("8/8/8/p7/8/7p/P7/8 w - -", "a2a4", "8/8/8/p7/P7/7p/8/8 b - -"),
        ("8/8/8/8/6p1/8/7P/8 w - -", "h2h4", "8/8/8/8/6pP/8/8/8 b - h3"),
        ("8/8/8/8/1p6/8/P7/8 w - -", "a2a4", "8/8/8/8/Pp6/8/8/8 b - a3"),
        // Two ranks on one file from anywhere and either way; the colours are the man's, whoever is to move; with a promotion too.
        ("8/8/8/3p4/8/4P3/8/8 w - -", "e3e5", "8/8/8/3pP3/8/8/8/8 b - e3"),
        ("8/8/8/4P3/8/3p4/8/8 b - -", "e5e3", "8/8/8/8/8/3pP3/8/8 w - e6"),
        ("8/8/8/8/3p4/8/4P3/8 b - -", "e2e4", "8/8/8/8/3pP3/8/8/8 w - e6"),
        ("8/8/8/8/3p4/8/4P3/8 w - -", "e2e4q", "8/8/8/8/3pQ3/8/8/8 b - e3"),
        // What stood on the destination is captured, and leaves no less of a double step.
        ("8/8/8/8/3pr3/8/4P3/8 w - -", "e2e4", "8/8/8/8/3pP3/8/8/8 b - e3"),
    ]);
}

#[test]
fn refused_are_records_and_then_moves_at_any_size() {
    let mut numbers = Numbers(9);
    for record in out_of_range(random_record(&mut numbers)) {
        for number in [0, 28_671, 28_672, u64::MAX] {
            assert_eq!(lent::board_after(&record, number), Err(Error::OutOfRange));
        }
    }
    for number in [28_672, 65_535, 65_536, 65_536 + 1_153, 70_000, (1 << 32) + 1_153, u64::MAX] {
        assert_eq!(lent::board_after(&random_record(&mut numbers), number), Err(Error::ListOutOfRange));
    }
    assert!(lent::board_after(&random_record(&mut numbers), u64::from(MAX_MOVE)).is_ok());
}

#[test]
fn what_comes_out_is_in_range_and_reads_back() {
    let mut numbers = Numbers(90);
    for _ in 0..20_000 {
        let (record, number) = (random_record(&mut numbers), numbers.below(28_672));
        let after = Board::from_record(&lent::board_after(&record, number).unwrap()).unwrap();
        assert_eq!(Board::from_fen_full(after.to_fen_full()), Ok(after));
    }
}

/// A log of this board's one listed move.
fn started(fen: &str, text: &str) -> (Log, Move) {
    let (board, made) = (Board::from_fen(fen).unwrap(), Move::from_text(text).unwrap());
    (Log::start(&Position { board, in_check: false, list: &[made] }).unwrap(), made)
}

#[test]
fn number_24_for_each_number_that_differs() {
    let (log, made) = started("r3k2r/8/8/8/8/8/8/R3K2R w KQkq -", "e1g1");
    let good = *log.current_position().after(made).record();
    for place in (0..68).filter(|&place| place != 64) {
        let bound = [13, 2, 4, 4, 9][usize::max(place, 63) - 63];
        for number in (0..bound).filter(|&number| number != good.numbers[place]) {
            let mut next = good;
            next.numbers[place] = number;
            let given = Given { record: &next, in_check: 0, list: &[] };
            Parts::of(&log).refuses(Error::WrongRecord, |parts| parts.make_move(u64::from(made.number()), given));
            let mut log = log.clone();
            let board = Board::from_record(&next).unwrap();
            assert_eq!(log.make_move(made, &Position { board, in_check: false, list: &[] }).unwrap_err().number(), 24);
            assert_eq!(log.counts(), Counts { actions: 0, moves: 0 });
        }
    }
    let given = Given { record: &good, in_check: 0, list: &[] };
    assert_eq!(Parts::of(&log).make_move(u64::from(made.number()), given), Ok(Counts { actions: 1, moves: 1 }));
}

#[test]
fn number_24_comes_after_12_and_before_13() {
    let mut log = play(Board::default(), "", "", "b1c3");
    while log.offer_draw(Color::White).is_ok() {}
    let made = moves("b1c3")[0];
    let good = log.current_position().after(made);
    let mut asked = |board: Board| log.make_move(made, &Position { board, in_check: false, list: &[] });
    assert_eq!(asked(good), Err(Error::LogFull));
    assert_eq!(asked(good.en_passant(Some(File::A))), Err(Error::WrongRecord));
    assert_eq!(asked(good.en_passant(Some(File::A)).side_to_move(Color::White)), Err(Error::WrongSideToMove));
    let long = vec![made; 256];
    assert_eq!(
        log.make_move(made, &Position { board: good.en_passant(Some(File::A)), in_check: false, list: &long }),
        Err(Error::ListOutOfRange)
    );
}

#[test]
fn a_stored_move_without_its_record_makes_no_good_log() {
    let log = play(Board::default(), "b1c3 b8c6", "", "e2e4");
    for (position, place) in (1..3).flat_map(|position| (0..72).map(move |place| (position, place))) {
        let mut parts = Parts::of(&log);
        let byte = &mut parts.positions[POSITION_BYTES * position + place];
        *byte = if *byte == 0 { 1 } else { 0 };
        parts.refuses_queries(Error::LogNotGood);
        parts.refuses_all(Error::LogNotGood);
        assert_eq!(Log::from_parts(&parts.actions, &parts.positions, parts.counts), Err(Error::LogNotGood));
    }
}

#[test]
fn play_computes_the_board() {
    let (mut log, made) = started("4k2r/8/8/8/8/8/3P4/R3K3 w Qk -", "e1c1");
    let other = Move::from_text("a1a8").unwrap();
    assert_eq!(log.play(other, true, &[]), Err(Error::MoveNotListed));
    assert_eq!(log.play(made, false, &vec![other; 256]), Err(Error::ListOutOfRange));
    let castles = moves("e8g8");
    log.play(made, false, &castles).unwrap();
    assert_eq!(log.current_position().to_fen_full(), "4k2r/8/8/8/8/8/3P4/2KR4 b k - 1 1");
    log.play(castles[0], true, &moves("d2d4")).unwrap();
    assert_eq!((log.current_position().to_fen_full().as_str(), log.in_check()), ("5rk1/8/8/8/8/8/3P4/2KR4 w - - 2 2", true));
    assert_eq!(log.current_moves(), moves("d2d4"));
    log.play(moves("d2d4")[0], false, &[]).unwrap();
    assert_eq!(log.play(made, false, &[]), Err(Error::GameOver));
    assert_eq!(log.counts(), Counts { actions: 3, moves: 3 });
    assert_eq!(Log::from_parts(log.used_actions(), log.used_positions(), log.counts()), Ok(log));
}
