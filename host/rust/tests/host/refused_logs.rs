//! Every refusal of the log's calls, with both parts and the counts as they were.

use crate::common::{Parts, after, moves, out_of_range, play};
use menkhodur::lent::{self, ACTIONS_PART, Given, MAX_ACTIONS, MAX_MOVES, POSITION_BYTES, POSITIONS_PART, Record};
use menkhodur::{Board, Color, Counts, Error, Log, Move, Position};

const TO_C3: u64 = 1153;
const NOT_IN_RANGE: Record = Record { numbers: [255; 68], half_moves: 65_535, full_moves: 65_535 };
/// The part of the positions as it was before version 12, without counters.
const OLD_PART: usize = 4_097 * 580;

fn knight() -> Record {
    lent::fen_read(b"8/8/8/8/8/8/8/1N6 w - -").unwrap()
}

fn moved() -> Record {
    lent::fen_read_full(b"8/8/8/8/8/2N5/8/8 b - - 1 1").unwrap()
}

fn started() -> Parts {
    Parts::start(&knight(), &[1153])
}

fn refuses_start(parts: &mut Parts, want: Error, given: Given<'_>) {
    parts.refuses(want, |parts| lent::game_start(&parts.actions, &mut parts.positions, given));
}

/// A log's own refusals: what it holds, and its counts, are compared.
fn refuses(log: &mut Log, want: Error, call: impl FnOnce(&mut Log) -> Result<(), Error>) {
    let before = log.clone();
    assert_eq!(call(log), Err(want));
    assert!(*log == before, "{want}: a refused call has changed the log");
}

#[test]
fn number_5_positions_and_colours() {
    let mut parts = started();
    // Each comes before the list, and before the side and the record, which are those of before the move.
    let records = out_of_range(moved()).chain(out_of_range(knight())).map(|record| (record, 0));
    for (record, in_check) in records.chain([(moved(), 2), (moved(), 255), (knight(), 2)]) {
        let given = Given { record: &record, in_check, list: &[28_672] };
        parts.refuses(Error::OutOfRange, |parts| parts.make_move(TO_C3, given));
        refuses_start(&mut parts, Error::OutOfRange, given);
    }
    for colour in [2, 255] {
        parts.refuses(Error::OutOfRange, |parts| parts.offer_draw(colour));
        parts.refuses(Error::OutOfRange, |parts| parts.resign(colour));
    }
}

#[test]
fn number_6_lists() {
    let mut parts = started();
    let long = [1153; 256];
    for list in [&long[..], &[28_672], &[0, 65_535]] {
        // White to move would be 12, were the list not looked at first.
        let given = Given { record: &knight(), in_check: 0, list };
        parts.refuses(Error::ListOutOfRange, |parts| parts.make_move(TO_C3, given));
        refuses_start(&mut parts, Error::ListOutOfRange, given);
    }
    let list = [Move::from_number(TO_C3).unwrap(); 256];
    let board = Board::from_record(&knight()).unwrap();
    assert_eq!(Log::start(&Position { board, in_check: false, list: &list }), Err(Error::ListOutOfRange));
    let mut log = Log::start(&Position { board, in_check: false, list: &list[..255] }).unwrap();
    let next = Position { board, in_check: false, list: &list };
    refuses(&mut log, Error::ListOutOfRange, |log| log.make_move(list[0], &next));
}

#[test]
fn number_9_counts_are_never_cut() {
    for (actions, moves) in [
        (1, 0),
        (0, 1),
        (MAX_ACTIONS as u64 + 1, 0),
        (0, MAX_MOVES as u64 + 1),
        (1 << 16, 0),
        (0, 1 << 16),
        (70_000, 0),
        (0, 70_000),
        (1 << 32, 0),
        (0, 1 << 32),
        (u64::MAX, 0),
        (0, u64::MAX),
        (u64::MAX, u64::MAX),
    ] {
        let mut parts = started();
        parts.counts = Counts { actions, moves };
        parts.refuses_all(Error::LogNotGood);
        parts.refuses_queries(Error::LogNotGood);
        assert_eq!(Log::from_parts(&parts.actions, &parts.positions, parts.counts), Err(Error::LogNotGood));
    }
}

#[test]
fn number_9_bytes() {
    let log = play(Board::from_record(&knight()).unwrap(), "b1c3", "", "b1c3");
    // Each alters one used byte: of the action its kind, colour and move, of the start its record, check and list, and of the second
    // position its side to move and a square.
    let edits = [(true, 0, 0), (true, 0, 6), (true, 1, 1), (true, 2, 130), (true, 3, 5)];
    let start = [(0, 13), (72, 2), (73, 0), (74, 130), (76, 1)];
    let second = [(64, 0), (0, 1)].map(|(place, byte)| (POSITION_BYTES + place, byte));
    let more = start.into_iter().chain(second).map(|(place, byte)| (false, place, byte));
    for (action, place, byte) in edits.into_iter().chain(more) {
        let mut parts = Parts::of(&log);
        let part = if action { &mut parts.actions } else { &mut parts.positions };
        assert_ne!(part[place], byte);
        part[place] = byte;
        parts.refuses_all(Error::LogNotGood);
        parts.refuses_queries(Error::LogNotGood);
        assert_eq!(Log::from_parts(&parts.actions, &parts.positions, parts.counts), Err(Error::LogNotGood));
    }
}

#[test]
fn number_10_after_each_ending() {
    let board = Board::from_record(&knight()).unwrap();
    let mut resigned = play(board, "", "", "b1c3");
    resigned.resign(Color::White).unwrap();
    let mut accepted = play(board, "", "", "b1c3");
    accepted.offer_draw(Color::Black).unwrap();
    accepted.accept_draw().unwrap();
    let stalemate = play(board, "", "", "");
    let mate = Log::start(&Position { board, in_check: true, list: &[] }).unwrap();
    for mut log in [resigned, accepted, stalemate, mate] {
        let mut parts = Parts::of(&log);
        parts.refuses_all(Error::GameOver);
        // Whether a game is over is asked of a good log only.
        parts.counts.actions += 1;
        parts.refuses_all(Error::LogNotGood);
        let next = Position { board, in_check: false, list: &[] };
        refuses(&mut log, Error::GameOver, |log| log.make_move(moves("b1c3")[0], &next));
        refuses(&mut log, Error::GameOver, |log| log.offer_draw(Color::White));
        refuses(&mut log, Error::GameOver, |log| log.resign(Color::White));
        refuses(&mut log, Error::GameOver, Log::accept_draw);
        refuses(&mut log, Error::GameOver, Log::declare_draw);
        assert!(!log.can_declare_draw());
    }
}

#[test]
fn number_11_moves_are_never_cut() {
    let mut parts = started();
    let next = Given { record: &moved(), in_check: 0, list: &[] };
    for number in [0, 1154, 28_672, 65_536 + TO_C3, 70_000, (1 << 32) + TO_C3, u64::MAX] {
        parts.refuses(Error::MoveNotListed, |parts| parts.make_move(number, next));
        // Not even a position that is out of range is looked at before the move.
        let bad = Given { record: &NOT_IN_RANGE, in_check: 2, list: &[65_535] };
        parts.refuses(Error::MoveNotListed, |parts| parts.make_move(number, bad));
    }
    let mut log = play(Board::default(), "", "", "b1c3");
    let next = Position { board: Board::default(), in_check: false, list: &[] };
    refuses(&mut log, Error::MoveNotListed, |log| log.make_move(moves("c3b1")[0], &next));
}

#[test]
fn number_12_side() {
    let mut parts = started();
    let next = Given { record: &knight(), in_check: 0, list: &[] };
    parts.refuses(Error::WrongSideToMove, |parts| parts.make_move(TO_C3, next));
    let mut log = play(Board::default(), "", "", "b1c3");
    let next = Position { board: Board::default(), in_check: false, list: &[] };
    refuses(&mut log, Error::WrongSideToMove, |log| log.make_move(moves("b1c3")[0], &next));
}

#[test]
fn number_24_record() {
    let mut parts = started();
    // Black is to move, but the knight has not moved; the log that is full is not asked before that.
    let waiting = lent::side_to_move(&knight(), 1).unwrap();
    let next = Given { record: &waiting, in_check: 0, list: &[] };
    parts.refuses(Error::WrongRecord, |parts| parts.make_move(TO_C3, next));
    let mut log = full(play(Board::default(), "", "", "b1c3"));
    let next = Position { board: Board::default().side_to_move(Color::Black), in_check: false, list: &[] };
    refuses(&mut log, Error::WrongRecord, |log| log.make_move(moves("b1c3")[0], &next));
    assert_eq!(Error::WrongRecord.number(), 24);
}

/// A log with the most actions, of which the last are offers.
fn full(mut log: Log) -> Log {
    while log.counts().actions < MAX_ACTIONS as u64 {
        log.offer_draw(Color::White).unwrap();
    }
    log
}

#[test]
fn number_13_actions() {
    let mut log = full(play(Board::default(), "", "", "b1c3"));
    let board = after(Board::default(), moves("b1c3")[0]);
    let next = Position { board, in_check: false, list: &[] };
    refuses(&mut log, Error::LogFull, |log| log.make_move(moves("b1c3")[0], &next));
    refuses(&mut log, Error::LogFull, |log| log.play(moves("b1c3")[0], false, &[]));
    refuses(&mut log, Error::LogFull, |log| log.offer_draw(Color::Black));
    refuses(&mut log, Error::LogFull, |log| log.resign(Color::Black));
    refuses(&mut log, Error::LogFull, Log::accept_draw);
    // What else is wrong comes before a full log.
    refuses(&mut log, Error::NoClaim, Log::declare_draw);
    let wrong_side = Position { board: Board::default(), ..next };
    refuses(&mut log, Error::WrongSideToMove, |log| log.make_move(moves("b1c3")[0], &wrong_side));
    let mut parts = Parts::of(&log);
    parts.refuses(Error::OutOfRange, |parts| parts.offer_draw(2));
    parts.refuses(Error::OutOfRange, |parts| parts.resign(2));
}

#[test]
fn number_13_claims_and_offers() {
    let back_and_forth = "b1c3 b8c6 c3b1 c6b8 b1c3 b8c6 c3b1 c6b8";
    let mut log = full(play(Board::default(), back_and_forth, "b1c3 b8c6 c3b1 c6b8", "b1c3 b1c3 b8c6 c3b1 c6b8"));
    assert!(log.can_declare_draw());
    refuses(&mut log, Error::LogFull, Log::declare_draw);
    Parts::of(&log).refuses(Error::LogFull, Parts::declare_draw);

    // Offers and then two moves: full, and with no offer that stands.
    let mut log = play(Board::default(), "", "", "b1c3");
    while log.counts().actions < MAX_ACTIONS as u64 - 2 {
        log.offer_draw(Color::White).unwrap();
    }
    for (made, list) in [("b1c3", "b8c6"), ("b8c6", "c3b1")] {
        let board = after(log.current_position(), moves(made)[0]);
        log.make_move(moves(made)[0], &Position { board, in_check: false, list: &moves(list) }).unwrap();
    }
    assert_eq!(log.counts(), Counts { actions: MAX_ACTIONS as u64, moves: 2 });
    refuses(&mut log, Error::NoDrawOffer, Log::accept_draw);
}

#[test]
fn number_13_moves() {
    let board = Board::default();
    let mut log = play(board, &"b1c3 b8c6 c3b1 c6b8 ".repeat(MAX_MOVES / 4), "", "b1c3");
    let most = MAX_MOVES as u64;
    assert_eq!(log.counts(), Counts { actions: most, moves: most });
    let next = Position { board: after(log.current_position(), moves("b1c3")[0]), in_check: false, list: &[] };
    refuses(&mut log, Error::LogFull, |log| log.make_move(moves("b1c3")[0], &next));
    log.offer_draw(Color::White).unwrap();
    assert_eq!(log.counts(), Counts { actions: most + 1, moves: most });
    assert_eq!(Log::from_parts(log.used_actions(), log.used_positions(), log.counts()), Ok(log));
}

#[test]
fn number_14_offers() {
    let mut parts = started();
    parts.refuses(Error::NoDrawOffer, Parts::accept_draw);
    let mut log = play(Board::default(), "b1c3", "", "b8c6");
    refuses(&mut log, Error::NoDrawOffer, Log::accept_draw);
    assert_eq!(log.accept_draw().unwrap_err().number(), 14);
}

#[test]
fn number_15_claims() {
    let mut parts = started();
    parts.refuses(Error::NoClaim, Parts::declare_draw);
    let mut log = play(Board::default(), "b1c3 b8c6 c3b1 c6b8", "", "b1c3");
    assert!(!log.can_declare_draw());
    refuses(&mut log, Error::NoClaim, Log::declare_draw);
    assert_eq!(log.declare_draw().unwrap_err().number(), 15);
}

#[test]
fn number_16_parts() {
    let whole = started();
    for (actions, positions) in
        [(ACTIONS_PART - 1, POSITIONS_PART), (ACTIONS_PART, POSITIONS_PART - 1), (ACTIONS_PART, OLD_PART), (0, 0), (4, POSITION_BYTES)]
    {
        let mut parts = whole.clone();
        parts.actions.truncate(actions);
        parts.positions.truncate(positions);
        // Counts that are over their limits, or a position that is out of range, are only looked at in parts that are long enough.
        for counts in [Counts::default(), Counts { actions: 70_000, moves: u64::MAX }] {
            parts.counts = counts;
            parts.refuses_all(Error::PartTooShort);
            parts.refuses_queries(Error::PartTooShort);
        }
        refuses_start(&mut parts, Error::PartTooShort, Given { record: &NOT_IN_RANGE, in_check: 2, list: &[65_535] });
    }
    assert_eq!(Error::PartTooShort.number(), 16);
}
