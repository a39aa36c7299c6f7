//! Settled records, judged by a rule of their own: the squares by name, the files in letters.

use crate::common::{Numbers, random_record};
use menkhodur::lent::{self, MAX_FEN, Record};
use menkhodur::{ALL_COLORS, ALL_FILES, Board, Color, File, Piece, Square};

const FILE: usize = 67;

/// "cleared unless a pawn of the side to move stands beside the pawn that moved (white to move: rank 5, black: rank 4; file f-1 or f+1)".
fn rule(board: Board) -> Board {
    let Some(file) = board.en_passant_file() else { return board };
    let (side, letter) = (board.get_side_to_move(), char::from(b'a' + file as u8));
    let rank = if side == Color::White { 5 } else { 4 };
    let neighbours: &[char] = match letter {
        'a' => &['b'],
        'b' => &['a', 'c'],
        'c' => &['b', 'd'],
        'd' => &['c', 'e'],
        'e' => &['d', 'f'],
        'f' => &['e', 'g'],
        'g' => &['f', 'h'],
        _ => &['g'],
    };
    let own_pawn = |square: Square| board.piece_on(square) == Some(Piece::Pawn) && board.color_on(square) == Some(side);
    if neighbours.iter().any(|beside| own_pawn(format!("{beside}{rank}").parse().unwrap())) { board } else { board.en_passant(None) }
}

/// Asks both layers for the board that the rule gives, of the record and of its text, and again of what they gave.
fn check(board: Board) {
    let want = rule(board);
    assert_eq!((board.settled(), want.settled()), (want, want), "{}", board.to_fen_full());
    assert_eq!(lent::board_settled(board.record()).as_ref(), Ok(want.record()));
    let (key, mut room) = (want.to_fen(), [0xA5; MAX_FEN + 1]);
    assert_eq!((Board::settled_key(board.to_fen_full()).as_ref(), Board::settled_key(&key).as_ref()), (Ok(&key), Ok(&key)));
    assert_eq!(lent::fen_settled(board.to_fen().as_bytes(), &mut room), Ok(key.len()));
    assert_eq!((&room[..key.len()], room[key.len()..].iter().all(|&byte| byte == 0xA5)), (key.as_bytes(), true));
}

/// The board with each file, and with none.
fn with_files(board: Board) -> impl Iterator<Item = Board> {
    ALL_FILES.map(Some).into_iter().chain([None]).map(move |file| board.en_passant(file))
}

#[test]
fn the_rows_of_the_definition() {
    let rows = [
        ("8/8/8/8/4P3/8/8/8 b - e3", "8/8/8/8/4P3/8/8/8 b - - 0 1"),
        ("8/8/8/8/4P3/8/8/8 b - - 7 20", "8/8/8/8/4P3/8/8/8 b - - 0 1"),
        ("8/8/8/3p4/8/8/8/8 w - d6", "8/8/8/3p4/8/8/8/8 w - - 0 1"),
        ("8/8/8/8/3pP3/8/8/8 b - e3", "8/8/8/8/3pP3/8/8/8 b - e3 0 1"),
        ("8/8/8/3pP3/8/8/8/8 w - d6", "8/8/8/3pP3/8/8/8/8 w - d6 0 1"),
        // A king and a pawn of the other side beside, a pawn two files and one rank away, and both wraps of files a and h.
        ("8/8/8/2Kp4/8/8/8/8 w - d6", "8/8/8/2Kp4/8/8/8/8 w - - 0 1"),
        ("8/8/8/2pp4/8/8/8/8 w - d6", "8/8/8/2pp4/8/8/8/8 w - - 0 1"),
        ("8/8/8/1P1p4/8/8/8/8 w - d6", "8/8/8/1P1p4/8/8/8/8 w - - 0 1"),
        ("8/8/2P5/3p4/2P5/8/8/8 w - d6", "8/8/2P5/3p4/2P5/8/8/8 w - - 0 1"),
        ("8/8/8/p6P/7P/8/8/8 w - a6", "8/8/8/p6P/7P/8/8/8 w - - 0 1"),
        ("8/8/P7/P6p/8/8/8/8 w - h6", "8/8/P7/P6p/8/8/8/8 w - - 0 1"),
        ("8/8/8/8/P6p/7p/8/8 b - a3", "8/8/8/8/P6p/7p/8/8 b - - 0 1"),
        ("8/8/8/p7/p6P/8/8/8 b - h3", "8/8/8/p7/p6P/8/8/8 b - - 0 1"),
        // The pawn that moved is not looked for.
        ("8/8/8/2P5/8/8/8/8 w - d6", "8/8/8/2P5/8/8/8/8 w - d6 0 1"),
    ];
    for (text, want) in rows {
        assert_eq!(Board::settled_key(text).as_deref(), Ok(want));
        check(Board::from_fen(text).unwrap());
    }
}

/// One man anywhere, of any kind, and each file for each side.
#[test]
fn every_man_on_every_square() {
    let mut kept = 0;
    for (number, code) in (0..64).flat_map(|square| (0..12).map(move |code| (square, code))) {
        let mut record = Record { numbers: [0; 68], half_moves: 12, full_moves: 34 };
        record.numbers[number] = code + 1;
        for color in ALL_COLORS {
            let board = Board::from_record(&record).unwrap().side_to_move(color);
            with_files(board).for_each(check);
            kept += with_files(board).filter(|board| board.settled().en_passant_file().is_some()).count();
        }
    }
    // Six files with two neighbours, two with one, for each side.
    assert_eq!(kept, 2 * (6 * 2 + 2));
}

#[test]
fn random_records() {
    let mut numbers = Numbers(14);
    for _ in 0..3_000 {
        let mut record = random_record(&mut numbers);
        // Pawns on both ranks, or a file would hardly ever be kept.
        for square in 24..40 {
            record.numbers[square] = [1, 7, record.numbers[square], 0][numbers.below(4) as usize];
        }
        check(Board::from_record(&record).unwrap());
        let settled = lent::board_settled(&record).unwrap();
        record.numbers[FILE] = settled.numbers[FILE];
        assert_eq!(settled, record, "another number than the file has changed");
    }
}

#[test]
fn the_examples_with_each_file() {
    for name in ["en-passant.fen", "positions.fen"] {
        let path = format!("{}/../../examples/{name}", env!("CARGO_MANIFEST_DIR"));
        for line in std::fs::read_to_string(path).unwrap().lines() {
            let Ok(board) = Board::from_fen(line) else { continue };
            with_files(board).flat_map(|board| ALL_COLORS.map(|color| board.side_to_move(color))).for_each(check);
        }
    }
}

/// A game with a double step beside a pawn and one that is not: each board is settled as it comes.
#[test]
fn what_is_played_is_settled() {
    let mut board = Board::default();
    for (text, file) in [("e2e4", None), ("a7a6", None), ("e4e5", None), ("d7d5", Some(File::D)), ("h2h4", None)] {
        board = board.after(text.parse().unwrap());
        assert_eq!((board.settled(), board.en_passant_file()), (board, file), "{text}");
    }
}

/// What the crate's `Board` keeps of positions of games with each file put in (oracle/remake-vectors).
#[test]
fn as_the_crates_board_keeps_them() {
    let rows: Vec<_> =
        include_str!("settled.txt").lines().filter(|row| !row.starts_with('#')).map(|row| row.split_once(" -> ").unwrap()).collect();
    for (text, key) in &rows {
        assert_eq!(
            (Board::settled_key(text).as_deref(), Board::from_fen(text).unwrap().settled().to_fen().as_str()),
            (Ok(*key), *key),
            "{text}"
        );
    }
    let kept = rows.iter().filter(|(text, key)| text == key && !text.ends_with(" - 0 1")).count();
    let cleared = rows.iter().filter(|(text, key)| text != key).count();
    assert!(kept > 40 && cleared > 200, "{kept} kept, {cleared} cleared");
}
