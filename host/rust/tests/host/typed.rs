//! What the types read, write and compare by themselves.

use crate::common::{Numbers, random_record};
use menkhodur::{ALL_COLORS, ALL_PIECES, Board, Color, Error, GameResult, Log, Position, Square, lent};
use std::collections::BTreeMap;

#[test]
fn a_square_is_read_as_the_archive_reads_it() {
    let mut squares = 0;
    for file in 0..=127 {
        for rank in 0..=127 {
            let text = String::from_utf8(vec![file, rank]).unwrap();
            // The archive has no reader for one square, but one for two.
            let want = lent::move_read(&[file, rank, file, rank]).map(|number| Square::try_from((number % 64) as u8).unwrap());
            assert_eq!(text.parse(), want, "{text:?}");
            squares += usize::from(want.is_ok());
        }
    }
    assert_eq!(squares, 64);
}

#[test]
fn only_two_bytes_are_a_square() {
    let refuses = |offset: usize, texts: &[&str]| {
        for text in texts {
            assert_eq!(text.parse::<Square>(), Err(Error::InvalidSquare { offset }), "{text:?}");
            assert_eq!(text.parse::<Square>().unwrap_err().number(), 2);
        }
    };
    refuses(0, &["", "z4", "z9", "E4", " e4", "z9z", "\u{e9}", "\u{ff45}4"]);
    refuses(1, &["e", "4", "z", "e9", "ee4", "e0 ", "e\0", "e\u{e9}"]);
    refuses(2, &["e44", "e4 ", "e4q", "e2e4", "e2z"]);
}

#[test]
fn squares_have_the_numbers_below_64() {
    for number in 0..=255 {
        match Square::try_from(number) {
            Ok(square) => {
                assert!(number < 64);
                assert_eq!(square.to_int(), number);
                assert_eq!(square.to_string().parse(), Ok(square));
            }
            Err(error) => assert_eq!((number >= 64, error.number()), (true, 5)),
        }
    }
}

#[test]
fn words() {
    assert_eq!(ALL_COLORS.map(|color| color.to_string()), ["white", "black"]);
    assert_eq!(ALL_PIECES.map(|piece| format!("{piece}")), ["p", "n", "b", "r", "q", "k"]);
    assert_eq!(format!("{:>6}|{:<3}|{:^4}", Color::White, ALL_PIECES[0], Square::E4), " white|p  | e4 ");
    let results = [
        (GameResult::WhiteCheckmates, "white checkmates"),
        (GameResult::WhiteResigns, "white resigns"),
        (GameResult::BlackCheckmates, "black checkmates"),
        (GameResult::BlackResigns, "black resigns"),
        (GameResult::Stalemate, "stalemate"),
        (GameResult::DrawAccepted, "draw accepted"),
        (GameResult::DrawDeclared, "draw declared"),
    ];
    for (number, (result, words)) in (1..).zip(results) {
        assert_eq!((result.number(), result.to_string().as_str()), (number, words));
    }
}

#[test]
fn the_words_name_the_side_that_the_log_means() {
    let ended = |color: Color, in_check: bool| {
        let board = Board::new().side_to_move(color);
        Log::start(&Position { board, in_check, list: &[] }).unwrap().result().unwrap().to_string()
    };
    assert_eq!(ended(Color::Black, true), "white checkmates");
    assert_eq!(ended(Color::White, true), "black checkmates");
    assert_eq!(ended(Color::White, false), "stalemate");
}

#[test]
fn boards_are_ordered_by_their_numbers() {
    let mut numbers = Numbers(4);
    let mut records: Vec<_> = (0..500).map(|_| random_record(&mut numbers)).collect();
    // Some that only the counters tell apart.
    records.extend_from_within(..50);
    records[500..].iter_mut().for_each(|record| (record.half_moves, record.full_moves) = (record.full_moves, record.half_moves.max(1)));
    let mut boards: Vec<Board> = records.iter().map(|record| Board::from_record(record).unwrap()).collect();
    records.sort_unstable_by_key(|record| (record.numbers, record.half_moves, record.full_moves));
    boards.sort();
    assert!(boards.iter().map(Board::record).eq(&records));

    let side = Board::new().side_to_move(Color::Black);
    assert!(Board::new() < side && side < Board::new().piece(Square::H8, ALL_PIECES[0], Color::White));
    let counted = [Board::new(), side, Board::new()].into_iter().fold(BTreeMap::new(), |mut counted, board| {
        *counted.entry(board).or_insert(0) += 1;
        counted
    });
    assert_eq!(counted.into_iter().collect::<Vec<_>>(), [(Board::new(), 2), (side, 1)]);
}
