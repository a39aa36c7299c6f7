//! The two counters of a record (document 02, order 12): the steps that set them, the calls that judge them, the board after a move, and logs.
//! Their FEN texts are in `full_fen.rs`, and rolls in `rolls.rs`.

use crate::common::{Numbers, Parts, bad_counters, counted, counters_after, empty, moves, play, random_record};
use menkhodur::lent::{self, ACTIONS_PART, Given, MAX_COUNT, MAX_ROLL, POSITION_BYTES, POSITIONS_PART, Record};
use menkhodur::{Board, Color, Counts, Error, File, Log, Move, Position, Reason};

const ROUND: &str = "b1c3 b8c6 c3b1 c6b8 ";
const TO_C3: u64 = 1153;
const OVER_U16: [u64; 7] = [10_000, 65_535, 65_536, 65_537, 65_536 + 9_999, (1 << 32) + 1, u64::MAX];

fn record(fen: &str) -> Record {
    lent::fen_read_full(fen.as_bytes()).unwrap()
}

fn knight() -> Record {
    record("8/8/8/8/8/8/8/1N6 w - - 5 9")
}

fn moved() -> Record {
    record("8/8/8/8/8/2N5/8/8 b - - 6 9")
}

// ---- Steps

#[test]
fn the_steps_at_their_bounds() {
    let mut numbers = Numbers(120);
    for _ in 0..200 {
        let given = random_record(&mut numbers);
        let board = Board::from_record(&given).unwrap();
        for number in [0, 1, 2, 255, 256, 257, 9_998, MAX_COUNT] {
            let half = Record { half_moves: number as u16, ..given };
            assert_eq!(lent::half_moves(&given, number), Ok(half));
            let stepped = board.half_moves(number).unwrap();
            assert_eq!((stepped.record(), stepped.get_half_moves(), stepped.get_full_moves()), (&half, half.half_moves, given.full_moves));
        }
        for number in [1, 2, 255, 256, 257, 9_998, MAX_COUNT] {
            let full = Record { full_moves: number as u16, ..given };
            assert_eq!(lent::full_moves(&given, number), Ok(full));
            let stepped = board.full_moves(number).unwrap();
            assert_eq!((stepped.record(), stepped.get_half_moves(), stepped.get_full_moves()), (&full, given.half_moves, full.full_moves));
        }
    }
}

#[test]
fn a_number_out_of_range_is_never_cut() {
    for number in OVER_U16 {
        assert_eq!((lent::half_moves(&empty(), number), Board::new().half_moves(number)), (Err(Error::OutOfRange), Err(Error::OutOfRange)));
        assert_eq!((lent::full_moves(&empty(), number), Board::new().full_moves(number)), (Err(Error::OutOfRange), Err(Error::OutOfRange)));
    }
    assert_eq!(lent::full_moves(&empty(), 0), Err(Error::OutOfRange));
    assert_eq!(lent::half_moves(&empty(), 0), Ok(empty()));
    // A step judges the counter that it is to set, too.
    for bad in bad_counters(empty()) {
        assert_eq!(lent::half_moves(&bad, 0), Err(Error::OutOfRange));
        assert_eq!(lent::full_moves(&bad, 1), Err(Error::OutOfRange));
    }
}

#[test]
fn every_step_keeps_both_and_a_board_begins_with_0_and_1() {
    for board in [Board::new(), Board::default(), Board::from_numbers(&[1; 68]).unwrap(), Board::from_fen(" w - - 5 10").unwrap()] {
        assert_eq!((board.get_half_moves(), board.get_full_moves()), (0, 1));
        assert_eq!(board.record(), &Record::from(*board.numbers()));
    }
    let board = counted(Board::default(), (300, 400));
    let square = "e2".parse().unwrap();
    for stepped in [
        board.piece(square, menkhodur::Piece::Queen, Color::Black),
        board.clear_square(square),
        board.side_to_move(Color::Black),
        board.castle_rights(Color::White, menkhodur::CastleRights::NoRights),
        board.en_passant(Some(File::C)),
    ] {
        assert_eq!((stepped.get_half_moves(), stepped.get_full_moves()), (300, 400));
        assert_ne!(stepped.numbers(), board.numbers());
    }
    assert!(board != Board::default() && board.numbers() == Board::default().numbers());
}

// ---- Every call that judges a record

/// A record of zeros is what a refused reader hands out: its move number is 0.
#[test]
fn zeros_are_not_in_range() {
    let zeros = Record { numbers: [0; 68], half_moves: 0, full_moves: 0 };
    assert_eq!(lent::piece(&zeros, 0, 1), Err(Error::OutOfRange));
    assert_eq!(lent::full_moves(&zeros, 1), Err(Error::OutOfRange));
    assert_eq!(lent::fen_write(&zeros, &mut [0; 85]), Err(Error::OutOfRange));
    assert_eq!(Board::from_record(&zeros), Err(Error::OutOfRange));
    assert_eq!(Board::from_numbers(&zeros.numbers), Ok(Board::new()));
}

#[test]
fn number_5_comes_first_in_texts_and_after_a_move() {
    for bad in bad_counters(knight()) {
        for room in [&mut [][..], &mut [0xA5; 91]] {
            assert_eq!(lent::fen_write(&bad, room), Err(Error::OutOfRange));
            assert_eq!(lent::fen_write_full(&bad, room), Err(Error::OutOfRange));
            // Before a list that is out of range, a move that is not listed or has no name, and a room that is too short.
            for list in [&[TO_C3 as u16][..], &[28_672], &[1153, 1153], &[]] {
                assert_eq!(lent::san_name(&bad, list, TO_C3, room), Err(Error::OutOfRange));
                assert_eq!(lent::san_name_standard(&bad, list, TO_C3, room), Err(Error::OutOfRange));
            }
            assert!(room.iter().all(|&byte| byte == 0xA5));
        }
        for (list, text) in [(&[1153][..], "Nc3"), (&[28_672], "Nc3"), (&[1153], "x"), (&[], "")] {
            assert_eq!(lent::san_read(&bad, list, text.as_bytes()), Err(Error::OutOfRange));
            assert_eq!(lent::san_read_standard(&bad, list, text.as_bytes()), Err(Error::OutOfRange));
        }
        for number in [TO_C3, 28_672, u64::MAX] {
            assert_eq!(lent::board_after(&bad, number), Err(Error::OutOfRange));
        }
        assert_eq!(Board::from_record(&bad), Err(Error::OutOfRange));
    }
}

#[test]
fn number_5_in_a_roll_comes_after_16() {
    let part = vec![0xFF; ACTIONS_PART];
    for bad in bad_counters(empty()) {
        for count in [0, 1, u64::MAX] {
            for length in [0, MAX_ROLL] {
                let mut room = vec![0xA5; length];
                assert_eq!(lent::roll_write(&bad, &part[1..], count, &mut room), Err(Error::PartTooShort));
                assert_eq!(lent::roll_write(&bad, &part, count, &mut room), Err(Error::OutOfRange));
                assert!(room.iter().all(|&byte| byte == 0xA5));
            }
        }
    }
}

#[test]
fn number_5_in_a_start_comes_after_16_and_before_6() {
    for bad in bad_counters(knight()) {
        let mut parts = Parts::unused();
        for list in [&[][..], &[28_672], &[1153; 256]] {
            let given = Given { record: &bad, in_check: 0, list };
            parts.refuses(Error::OutOfRange, |parts| lent::game_start(&parts.actions, &mut parts.positions, given));
            parts.refuses(Error::PartTooShort, |parts| lent::game_start(&parts.actions, &mut parts.positions[1..], given));
        }
    }
}

#[test]
fn number_5_in_a_move_comes_after_11_and_before_6_12_and_24() {
    let started = Parts::start(&knight(), &[1153]);
    // In range but for its counters: the record after the move, one with a wrong square, and one with the wrong side.
    let wrong = Record { numbers: record("8/8/8/8/8/8/8/8 b - - 6 9").numbers, ..moved() };
    for bad in [moved(), wrong, knight()].into_iter().flat_map(bad_counters) {
        for list in [&[][..], &[28_672], &[1153; 256]] {
            let next = Given { record: &bad, in_check: 0, list };
            let mut parts = started.clone();
            parts.refuses(Error::OutOfRange, |parts| parts.make_move(TO_C3, next));
            parts.refuses(Error::MoveNotListed, |parts| parts.make_move(TO_C3 + 1, next));
            parts.counts = parts.resign(0).unwrap();
            parts.refuses(Error::GameOver, |parts| parts.make_move(TO_C3, next));
            parts.counts.actions += 1;
            parts.refuses(Error::LogNotGood, |parts| parts.make_move(TO_C3, next));
            parts.positions.pop();
            parts.refuses(Error::PartTooShort, |parts| parts.make_move(TO_C3, next));
        }
    }
}

#[test]
fn move_texts_do_not_depend_on_counters() {
    let mut numbers = Numbers(121);
    for _ in 0..500 {
        let counted = random_record(&mut numbers);
        let plain = Record::from(counted.numbers);
        let list: Vec<u16> = (0..20).map(|_| numbers.below(28_672) as u16).collect();
        for &number in &list {
            let name = |record: &Record| {
                let (mut room, mut standard) = ([0; 11], [0; 8]);
                let named = [
                    lent::san_name(record, &list, u64::from(number), &mut room),
                    lent::san_name_standard(record, &list, u64::from(number), &mut standard),
                ];
                (named, room, standard)
            };
            let ([named, _], room, _) = name(&counted);
            assert_eq!(name(&counted), name(&plain));
            if let Ok(length) = named {
                assert_eq!(lent::san_read(&counted, &list, &room[..length]), Ok(number));
            }
        }
    }
}

// ---- The board after a move

#[test]
fn counters_after_a_move_by_hand() {
    for (before, text, want) in [
        // A quiet move of either side; the move number goes on after black's.
        ("8/8/8/8/8/8/8/1N6 w - - 5 9", "b1c3", "8/8/8/8/8/2N5/8/8 b - - 6 9"),
        ("1n6/8/8/8/8/8/8/8 b - - 5 9", "b8c6", "8/8/2n5/8/8/8/8/8 w - - 6 10"),
        // Whoever moves: it is the record's side that counts.
        ("8/8/8/8/8/8/8/1N6 b - - 5 9", "b1c3", "8/8/8/8/8/2N5/8/8 w - - 6 10"),
        ("1n6/8/8/8/8/8/8/8 w - - 5 9", "b8c6", "8/8/2n5/8/8/8/8/8 b - - 6 9"),
        // Pawns, captures, a man of one's own captured, and en passant.
        ("8/8/8/8/8/8/4P3/8 w - - 5 9", "e2e3", "8/8/8/8/8/4P3/8/8 b - - 0 9"),
        ("8/4p3/8/8/8/8/8/8 b - - 5 9", "e7e5", "8/8/8/4p3/8/8/8/8 w - - 0 10"),
        ("8/4p3/8/8/8/8/8/8 w - - 5 9", "e7e6", "8/8/4p3/8/8/8/8/8 b - - 0 9"),
        ("8/8/8/8/8/2p5/8/1N6 w - - 5 9", "b1c3", "8/8/8/8/8/2N5/8/8 b - - 0 9"),
        ("8/8/8/8/8/2P5/8/1N6 w - - 5 9", "b1c3", "8/8/8/8/8/2N5/8/8 b - - 0 9"),
        ("8/8/8/3Pp3/8/8/8/8 w - e6 5 9", "d5e6", "8/8/4P3/8/8/8/8/8 b - - 0 9"),
        ("8/4P3/8/8/8/8/8/8 w - - 5 9", "e7e8q", "4Q3/8/8/8/8/8/8/8 b - - 0 9"),
        // A promotion by a man that is no pawn empties nothing by itself.
        ("8/8/8/8/8/8/8/1N6 w - - 5 9", "b1c3b", "8/8/8/8/8/2B5/8/8 b - - 6 9"),
        // Castling: quiet, onto an occupied square, and over a man on the square passed over.
        ("8/8/8/8/8/8/8/4K2R w K - 5 9", "e1g1", "8/8/8/8/8/8/8/5RK1 b - - 6 9"),
        ("8/8/8/8/8/8/8/4K1nR w - - 5 9", "e1g1", "8/8/8/8/8/8/8/5RK1 b - - 0 9"),
        ("8/8/8/8/8/8/8/4Kq1R w - - 5 9", "e1g1", "8/8/8/8/8/8/8/5RK1 b - - 6 9"),
        // An empty source onto an empty square and onto an occupied one; a man to his own square, and an empty square to itself.
        ("8/8/8/8/8/8/8/8 w - - 5 9", "b1c3", "8/8/8/8/8/8/8/8 b - - 6 9"),
        ("8/8/8/8/8/2p5/8/8 w - - 5 9", "b1c3", "8/8/8/8/8/8/8/8 b - - 0 9"),
        ("8/8/8/8/8/8/8/1N6 w - - 5 9", "b1b1", "8/8/8/8/8/8/8/1N6 b - - 0 9"),
        ("8/8/8/8/8/8/8/8 w - - 5 9", "b1b1", "8/8/8/8/8/8/8/8 b - - 6 9"),
        // Rights that are lost do not touch the clock.
        ("8/8/8/8/8/8/8/4K2R w K - 5 9", "h1g1", "8/8/8/8/8/8/8/4K1R1 b - - 6 9"),
        ("8/8/8/8/8/8/8/4K2R w K - 5 9", "e1e2", "8/8/8/8/8/8/4K3/7R b - - 6 9"),
    ] {
        let (board, made) = (Board::from_fen_full(before).unwrap(), Move::from_text(text).unwrap());
        assert_eq!(Ok(board.after(made)), Board::from_fen_full(want), "{before} {text}");
        assert_eq!(lent::board_after(board.record(), u64::from(made.number())).as_ref(), Ok(&record(want)), "{before} {text}");
    }
}

#[test]
fn both_stop_at_9999_and_a_pawn_empties_the_clock_there_too() {
    for (before, text, want) in [
        ("1n6/8/8/8/8/8/8/8 b - - 9998 9998", "b8c6", (9_999, 9_999)),
        ("1n6/8/8/8/8/8/8/8 b - - 9999 9999", "b8c6", (9_999, 9_999)),
        ("1n6/8/8/8/8/8/8/8 w - - 9998 9998", "b8c6", (9_999, 9_998)),
        ("8/4p3/8/8/8/8/8/8 b - - 9999 9999", "e7e6", (0, 9_999)),
        ("8/8/2P5/8/8/8/8/1n6 b - - 9999 1", "b1c6", (0, 2)),
    ] {
        let after = Board::from_fen_full(before).unwrap().after(Move::from_text(text).unwrap());
        assert_eq!((after.get_half_moves(), after.get_full_moves()), want, "{before} {text}");
    }
}

#[test]
fn counters_after_any_move_by_their_rule() {
    let mut numbers = Numbers(122);
    for round in 0..40_000 {
        let (mut before, number) = (random_record(&mut numbers), numbers.below(28_672));
        // Men are thinned out, so that squares are often empty.
        before.numbers[..64].iter_mut().filter(|_| numbers.below(2) == 0).for_each(|man| *man = 0);
        if round % 4 == 0 {
            (before.half_moves, before.full_moves) = (9_999 - numbers.below(2) as u16, 9_999 - numbers.below(2) as u16);
        }
        let after = lent::board_after(&before, number).unwrap();
        assert_eq!((after.half_moves, after.full_moves), counters_after(&before, number), "{before:?} {number}");
        // The 68 numbers are those of the same record with 0 and 1.
        assert_eq!(after.numbers, lent::board_after(&Record::from(before.numbers), number).unwrap().numbers);
    }
}

// ---- The log

#[test]
fn positions_hold_their_counters_low_byte_first() {
    let log = play(counted(Board::default(), (0x1234, 0x2345 - 1)), "b1c3 b8c6", "", "e2e4");
    let at = |position: usize, place: usize| log.used_positions()[position * POSITION_BYTES + place];
    let bytes = [0, 1, 2].map(|position| [68, 69, 70, 71].map(|place| at(position, place)));
    assert_eq!(bytes, [[0x34, 0x12, 0x44, 0x23], [0x35, 0x12, 0x44, 0x23], [0x36, 0x12, 0x45, 0x23]]);
    let boards = log.positions().map(|position| (position.board.get_half_moves(), position.board.get_full_moves()));
    assert!(boards.eq([(0x1234, 0x2344), (0x1235, 0x2344), (0x1236, 0x2345)]));
    assert_eq!(log.current_position().record(), &lent::stored_position(log.used_positions(), 2).unwrap().record);
}

#[test]
fn any_start_in_range_and_no_zeros() {
    for (half_moves, full_moves) in [(0, 1), (500, 1), (0, 9_999), (9_999, 1), (9_999, 9_999)] {
        let parts = Parts::start(&Record { half_moves, full_moves, ..knight() }, &[1153]);
        assert_eq!((parts.result(), parts.can_claim_by_laws()), (Ok(0), Ok(false)));
        let ruled = parts.ruling().unwrap();
        assert_eq!((ruled.count, ruled.laws_count), (0, 0));
    }
    // 584 zeros are no position: the move number is 0.
    let (actions, positions) = ([0; ACTIONS_PART], vec![0; POSITIONS_PART]);
    assert_eq!(lent::game_result(&actions, &positions, Counts::default()), Err(Error::LogNotGood));
    assert_eq!(Log::from_parts(&[], &[0; POSITION_BYTES], Counts::default()), Err(Error::LogNotGood));
}

/// Counters in range that are not these.
fn other_counters((half, full): (u16, u16)) -> Vec<(u16, u16)> {
    let near = |count: u16| [count.wrapping_sub(1), count + 1, 0, 1, 9_999, count.swap_bytes(), count ^ 0x100];
    let halves = near(half).into_iter().filter(|&other| other <= 9_999 && other != half).map(|half| (half, full));
    let fulls = near(full).into_iter().filter(|other| (1..=9_999).contains(other) && *other != full).map(|full| (half, full));
    halves.chain(fulls).collect()
}

#[test]
fn number_24_for_a_wrong_counter_comes_after_12_and_before_13() {
    let made = moves("b1c3")[0];
    let started = play(counted(Board::default(), (258, 300)), "", "", "b1c3");
    let mut full = started.clone();
    while full.offer_draw(Color::White).is_ok() {}
    let good = started.current_position().after(made);
    let position = |board: Board| Position { board, in_check: false, list: &[] };
    let wrong = other_counters((259, 300));
    assert!(wrong.len() > 10);
    for board in wrong.into_iter().map(|counters| counted(good, counters)) {
        for log in [&started, &full] {
            let mut log = log.clone();
            assert_eq!(log.make_move(made, &position(board)), Err(Error::WrongRecord), "{board:?}");
            assert_eq!(log.make_move(made, &position(board.side_to_move(Color::White))), Err(Error::WrongSideToMove));
            assert_eq!(log.make_move(made, &Position { list: &[made; 256], ..position(board) }), Err(Error::ListOutOfRange));
        }
        let next = Given { record: board.record(), in_check: 0, list: &[] };
        Parts::of(&full).refuses(Error::WrongRecord, |parts| parts.make_move(TO_C3, next));
    }
    assert_eq!(full.make_move(made, &position(good)), Err(Error::LogFull));
    let mut log = started.clone();
    assert_eq!(log.make_move(made, &position(good)), Ok(()));
    let mut other = started;
    other.play(made, false, &[]).unwrap();
    assert!(log == other);
}

/// Puts counters into a stored position.
fn put_counters(positions: &mut [u8], position: usize, (half, full): (u16, u16)) {
    let place = &mut positions[position * POSITION_BYTES..][68..72];
    place.copy_from_slice(&[half.to_le_bytes(), full.to_le_bytes()].concat());
}

#[test]
fn number_9_for_a_stored_counter_that_the_move_does_not_give() {
    let log = play(counted(Board::default(), (258, 300)), "b1c3 b8c6", "", "e2e4");
    let good = Parts::of(&log);
    for (position, counters) in [(0, (258, 300)), (1, (259, 300)), (2, (260, 301))] {
        let out = [(10_000, counters.1), (65_535, counters.1), (counters.0, 0), (counters.0, 10_000), (counters.0, 65_535)];
        for wrong in other_counters(counters).into_iter().chain(out) {
            let mut parts = good.clone();
            put_counters(&mut parts.positions, position, wrong);
            parts.refuses_queries(Error::LogNotGood);
            parts.refuses_all(Error::LogNotGood);
            assert_eq!(Log::from_parts(&parts.actions, &parts.positions, parts.counts), Err(Error::LogNotGood));
        }
        let mut parts = good.clone();
        put_counters(&mut parts.positions, position, counters);
        assert!(parts == good);
    }
}

#[test]
fn a_start_of_other_counters_is_as_good_if_no_move_tells() {
    let mut alone = Parts::start(&knight(), &[1153]);
    for counters in other_counters((5, 9)) {
        put_counters(&mut alone.positions, 0, counters);
        assert_eq!(alone.result(), Ok(0));
        let start = lent::stored_position(&alone.positions, 0).unwrap().record;
        assert_eq!((start.half_moves, start.full_moves), counters);
    }
    for counters in [(10_000, 9), (65_535, 9), (5, 0), (5, 10_000), (5, 65_535)] {
        put_counters(&mut alone.positions, 0, counters);
        alone.refuses_queries(Error::LogNotGood);
    }
    // Behind a pawn's move the start's clock shows no more; and from 9,998 and 9,999 on, either counter goes to 9,999.
    let from = |half: u16, full: u16, text: &str| Parts::of(&play(counted(Board::default(), (half, full)), text, "", "g8f6"));
    for (mut parts, counters, good) in [
        (from(5, 9, "e2e3"), (77, 9), true),
        (from(5, 9, "e2e3"), (5, 10), false),
        (from(5, 9, "b1c3"), (6, 9), false),
        (from(9_998, 9, "b1c3"), (9_999, 9), true),
        (from(9_999, 9, "b1c3"), (9_998, 9), true),
        (from(9_999, 9, "b1c3"), (9_997, 9), false),
    ] {
        put_counters(&mut parts.positions, 0, counters);
        assert_eq!(parts.result().is_ok(), good, "{counters:?}");
    }
}

/// A log of so many moves to and fro, each position with one list.
fn to_and_fro(start: Board, count: usize) -> Log {
    let all = moves(ROUND);
    let mut log = Log::start(&Position { board: start, in_check: false, list: &all }).unwrap();
    for &made in all.iter().cycle().take(count) {
        log.play(made, false, &all).unwrap();
    }
    log
}

#[test]
fn repetition_does_not_look_at_counters() {
    for counters in [(0, 1), (250, 3), (9_990, 9_998), (9_999, 9_999)] {
        let start = counted(Board::default(), counters);
        for (count, equals, claim) in
            [(4, 1, None), (7, 1, None), (8, 2, Some(Reason::EqualPositions)), (12, 3, Some(Reason::EqualPositions))]
        {
            let log = to_and_fro(start, count);
            let ruling = log.ruling();
            assert_eq!((ruling.equals, ruling.claim, ruling.laws_claim), (equals, claim, claim), "{counters:?} {count}");
            assert_eq!((ruling.count, ruling.laws_count), (count, count), "the counts begin at the start");
            let first = ruling.earliest[0].unwrap();
            assert_eq!(log.positions().nth(first).unwrap().board.numbers(), log.current_position().numbers());
        }
    }
}

/// Positions whose counters are equal, 9,999 each, and which differ on the board are not equal.
#[test]
fn equal_counters_make_no_repetition() {
    let log = to_and_fro(counted(Board::default(), (9_999, 9_999)), 3);
    assert!(log.positions().all(|position| (position.board.get_half_moves(), position.board.get_full_moves()) == (9_999, 9_999)));
    assert_eq!(log.ruling().equals, 0);
}

/// The clock of position k is the Laws' count, and what the start's clock adds to it while nothing has emptied that count.
#[test]
fn a_log_never_stops_for_its_counters() {
    let start = counted(Board::default(), (9_900, 9_950));
    let mut log = play(start, &ROUND.repeat(60), "", "e2e4");
    for (index, position) in log.positions().enumerate() {
        let want = ((9_900 + index).min(9_999), (9_950 + index / 2).min(9_999));
        assert_eq!((usize::from(position.board.get_half_moves()), usize::from(position.board.get_full_moves())), want);
    }
    assert_eq!(log.ruling().laws_count, 240);
    log.play(moves("e2e4")[0], false, &moves("b8c6")).unwrap();
    log.play(moves("b8c6")[0], false, &[]).unwrap();
    let board = log.current_position();
    assert_eq!((log.ruling().laws_count, board.get_half_moves(), board.get_full_moves()), (1, 1, 9_999));
    assert_eq!(Log::from_parts(log.used_actions(), log.used_positions(), log.counts()), Ok(log));
}
