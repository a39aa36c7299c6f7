//! Accepted answers of every function, and of the types over them.

use crate::common::{Numbers, Parts, moves, random_record};
use menkhodur::lent::{self, Given, POSITION_BYTES, Record};
use menkhodur::{
    ALL_CASTLE_RIGHTS, ALL_COLORS, ALL_FILES, ALL_PIECES, ALL_RANKS, Board, CastleRights, Color, Counts, Error, File, MAX_MOVE, Move,
    Piece, Square,
};

#[test]
fn squares() {
    for (rank, &of_rank) in ALL_RANKS.iter().enumerate() {
        for (file, &of_file) in ALL_FILES.iter().enumerate() {
            assert_eq!(lent::make_square(rank as u8, file as u8), Ok((rank * 8 + file) as u8));
            let square = Square::make_square(of_rank, of_file);
            assert_eq!((square.get_rank(), square.get_file(), square.to_index()), (of_rank, of_file, rank * 8 + file));
        }
    }
    assert_eq!((Square::A1.to_int(), Square::H1.to_int(), Square::A8.to_int(), Square::H8.to_int()), (0, 7, 56, 63));
}

#[test]
fn rights() {
    for held in ALL_CASTLE_RIGHTS {
        for other in ALL_CASTLE_RIGHTS {
            assert_eq!(held.add(other).to_index(), held.to_index() | other.to_index());
            assert_eq!(held.remove(other).to_index(), held.to_index() & !other.to_index());
        }
        assert_eq!(usize::from(held.has_kingside()) + 2 * usize::from(held.has_queenside()), held.to_index());
    }
    for square in 0..64 {
        for colour in 0..2 {
            let back_rank = square / 8 == 7 * colour;
            let by_file = [2, 0, 0, 0, 3, 0, 0, 1][usize::from(square % 8)];
            assert_eq!(lent::square_rights(colour, square), Ok(if back_rank { by_file } else { 0 }));
        }
    }
    assert_eq!(CastleRights::square_to_castle_rights(Color::Black, Square::H8), CastleRights::KingSide);
}

#[test]
fn steps_set_one_number() {
    let mut numbers = Numbers(2);
    for _ in 0..200 {
        let given = random_record(&mut numbers);
        let (square, code) = (numbers.below(64) as u8, 1 + numbers.below(12) as u8);
        let (colour, rights, file) = (numbers.below(2) as u8, numbers.below(4) as u8, numbers.below(9) as u8);
        let (half, full) = (numbers.below(10_000), 1 + numbers.below(9_999));
        let with = |place: u8, number: u8| {
            let mut record = given;
            record.numbers[usize::from(place)] = number;
            Ok(record)
        };
        assert_eq!(lent::piece(&given, square, code), with(square, code));
        assert_eq!(lent::clear_square(&given, square), with(square, 0));
        assert_eq!(lent::side_to_move(&given, colour), with(64, colour));
        assert_eq!(lent::castle_rights(&given, colour, rights), with(65 + colour, rights));
        assert_eq!(lent::en_passant(&given, file), with(67, file));
        assert_eq!(lent::half_moves(&given, half), Ok(Record { half_moves: half as u16, ..given }));
        assert_eq!(lent::full_moves(&given, full), Ok(Record { full_moves: full as u16, ..given }));
    }
}

#[test]
fn builder_and_getters() {
    for color in ALL_COLORS {
        for piece in ALL_PIECES {
            let board = Board::new().piece(Square::C6, piece, color);
            assert_eq!((board.piece_on(Square::C6), board.color_on(Square::C6)), (Some(piece), Some(color)));
            assert_eq!(board.to_fen(), format!("8/8/2{}5/8/8/8/8/8 w - - 0 1", piece.to_string(color)));
            assert_eq!(board.clear_square(Square::C6), Board::new());
        }
        for rights in ALL_CASTLE_RIGHTS {
            let board = Board::new().castle_rights(color, rights);
            assert_eq!((board.get_castle_rights(color), board.get_castle_rights(!color)), (rights, CastleRights::NoRights));
        }
        assert_eq!(Board::new().side_to_move(color).get_side_to_move(), color);
    }
    for file in ALL_FILES {
        assert_eq!(Board::new().en_passant(Some(file)).en_passant_file(), Some(file));
    }
    assert_eq!(Board::new().piece_on(Square::C6), None);
}

#[test]
fn initial_position() {
    let initial = "rnbqkbnr/pppppppp/8/8/8/8/PPPPPPPP/RNBQKBNR w KQkq - 0 1";
    let board = Board::default();
    assert_eq!(board.to_string(), initial);
    assert_eq!(initial.parse(), Ok(board));
    assert_eq!(format!("{board:?}"), format!("Board({initial})"));
    assert_eq!((board.piece_on(Square::E1), board.color_on(Square::E8)), (Some(Piece::King), Some(Color::Black)));
}

#[test]
fn each_record_has_one_key_that_reads_back() {
    let mut numbers = Numbers(1);
    for _ in 0..2_000 {
        let record = random_record(&mut numbers);
        let board = Board::from_record(&record).unwrap();
        let key = board.to_fen();
        assert!((25..=85).contains(&key.len()), "{key}");
        assert_eq!(Board::from_fen(&key), Board::from_numbers(&record.numbers));
        assert_eq!((board.record(), board.numbers()), (&record, &record.numbers));

        let mut room = [0xA5; 100];
        assert_eq!(lent::fen_write(&record, &mut room), Ok(key.len()));
        assert_eq!(&room[..key.len()], key.as_bytes());
        assert!(room[key.len()..].iter().all(|&byte| byte == 0xA5));
    }
}

#[test]
fn every_move_has_its_number_and_text() {
    for number in 0..=MAX_MOVE {
        let made = Move::from_number(u64::from(number)).unwrap();
        assert_eq!(made.number(), number);
        assert_eq!(Move::new(made.get_source(), made.get_dest(), made.get_promotion()), made);

        let text = made.to_string();
        let letter = made.get_promotion().map(|piece| piece.to_string(Color::Black)).unwrap_or_default();
        assert_eq!(text, format!("{}{}{letter}", made.get_source(), made.get_dest()));
        match made.get_promotion() {
            Some(Piece::Pawn | Piece::King) => assert_eq!(text.parse::<Move>(), Err(Error::InvalidUciMove { offset: 4 })),
            _ => assert_eq!(text.parse(), Ok(made)),
        }
    }
    assert_eq!(format!("{:?}", Move::default()), "Move(a1a1)");
}

#[test]
fn a_written_move_and_name_leave_the_rest_of_the_room() {
    let mut room = [0xA5; 12];
    assert_eq!(lent::move_write(22_284, &mut room), Ok(5));
    assert_eq!(&room, b"e2e4q\xa5\xa5\xa5\xa5\xa5\xa5\xa5");
    let pawn = lent::fen_read(b"8/8/8/4P3/8/8/8/8 w - -").unwrap();
    assert_eq!(lent::san_name(&pawn, &[2788], 2788, &mut room), Ok(9));
    assert_eq!(&room, b"exd6 e.p.\xa5\xa5\xa5");
}

#[test]
fn names_are_read_as_their_moves() {
    let board = Board::from_fen("r3k2r/1P6/8/3pP3/8/2n5/1N1N4/R3K2R w KQkq d6").unwrap();
    let list = moves("b2c4 d2c4 e1g1 e1c1 e5d6 b7a8q b7a8n b7b8r e1e2");
    let names = ["Nbc4", "Ndc4", "O-O", "O-O-O", "exd6 e.p.", "bxa8Q", "bxa8N", "b8R", "Ke2"];
    for (&made, name) in list.iter().zip(names) {
        assert_eq!(board.name(&list, made).as_deref(), Ok(name));
        assert_eq!(board.read_san(&list, name), Ok(made));
    }
}

#[test]
fn log_calls_write_exactly_their_bytes() {
    let knight = lent::fen_read(b"8/8/8/8/8/8/8/1N6 w - -").unwrap();
    let (knight, moved) = (lent::half_moves(&knight, 258).unwrap(), lent::fen_read_full(b"8/8/8/8/8/2N5/8/8 b - - 259 1").unwrap());
    let mut parts = Parts::start(&knight, &[1153, 28_671]);
    let mut want = Parts::unused();
    want.positions[..584].fill(0);
    want.positions[..68].copy_from_slice(&knight.numbers);
    want.positions[68..78].copy_from_slice(&[2, 1, 1, 0, 0, 2, 129, 4, 255, 111]);
    assert!(parts == want);

    parts.counts = parts.offer_draw(1).unwrap();
    want.actions[..4].copy_from_slice(&[2, 1, 0, 0]);
    want.counts = Counts { actions: 1, moves: 0 };
    assert!(parts == want);

    parts.counts = parts.make_move(1153, Given { record: &moved, in_check: 1, list: &[66] }).unwrap();
    want.actions[4..8].copy_from_slice(&[1, 0, 129, 4]);
    let second = &mut want.positions[POSITION_BYTES..][..584];
    second.fill(0);
    second[..68].copy_from_slice(&moved.numbers);
    second[68..76].copy_from_slice(&[3, 1, 1, 0, 1, 1, 66, 0]);
    want.counts = Counts { actions: 2, moves: 1 };
    assert!(parts == want);

    parts.counts = parts.offer_draw(0).unwrap();
    parts.counts = parts.accept_draw().unwrap();
    want.actions[8..16].copy_from_slice(&[2, 0, 0, 0, 3, 0, 0, 0]);
    want.counts = Counts { actions: 4, moves: 1 };
    assert!(parts == want);
    assert_eq!((parts.result(), parts.can_declare_draw()), (Ok(6), Ok(false)));
}

#[test]
fn resigning_and_declaring_write_their_bytes() {
    let knight = lent::fen_read(b"8/8/8/8/8/8/8/1N6 w - -").unwrap();
    let mut parts = Parts::start(&knight, &[1153]);
    parts.counts = parts.resign(1).unwrap();
    assert_eq!(parts.actions[..8], [5, 1, 0, 0, 0xA5, 0xA5, 0xA5, 0xA5]);
    assert_eq!(parts.result(), Ok(4));

    // A move from an empty square to itself leaves every man in place, so the run is three turns of two.
    let mut parts = Parts::start(&knight, &[0]);
    for (side, half_moves, full_moves) in [(1, 1, 1), (0, 2, 2), (1, 3, 2), (0, 4, 3)] {
        let record = Record { half_moves, full_moves, ..lent::side_to_move(&knight, side).unwrap() };
        assert_eq!(parts.can_declare_draw(), Ok(false));
        parts.counts = parts.make_move(0, Given { record: &record, in_check: 0, list: &[0] }).unwrap();
    }
    assert_eq!(parts.can_declare_draw(), Ok(true));
    parts.counts = parts.declare_draw().unwrap();
    assert_eq!(parts.actions[16..24], [4, 0, 0, 0, 0xA5, 0xA5, 0xA5, 0xA5]);
    assert_eq!((parts.result(), parts.counts), (Ok(7), Counts { actions: 5, moves: 4 }));
}

#[test]
fn files_and_ranks_are_numbered_from_a1() {
    assert!(ALL_FILES.iter().enumerate().all(|(index, file)| file.to_index() == index));
    assert!(ALL_RANKS.iter().enumerate().all(|(index, rank)| rank.to_index() == index));
    assert_eq!(Square::make_square(ALL_RANKS[3], File::E).to_string(), "e4");
}
