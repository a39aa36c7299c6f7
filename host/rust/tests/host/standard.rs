//! SAN as the PGN standard writes it: order 6 of document 02.

use crate::common::moves;
use menkhodur::lent::{self, Record};
use menkhodur::{Board, Error, Move};

const KNIGHT: &str = "8/8/8/8/8/8/8/1N6 w - -";
const NO_SAN: Result<u16, Error> = Err(Error::InvalidSanMove);

fn record(fen: &str) -> Record {
    lent::fen_read(fen.as_bytes()).unwrap()
}

fn listed(numbers: &[u16]) -> Vec<Move> {
    numbers.iter().map(|&number| Move::from_number(u64::from(number)).unwrap()).collect()
}

/// What a text is read as, by either function.
fn read(fen: &str, list: &[u16], text: impl AsRef<[u8]>) -> Result<u16, Error> {
    let answer = lent::san_read_standard(&record(fen), list, text.as_ref());
    assert_eq!(Board::from_fen(fen).unwrap().read_san_standard(&listed(list), text).map(Move::number), answer);
    answer
}

/// A move has this name, from either function, in a room that fits and in one that is longer, and its name is read as the move.
fn is_named(fen: &str, list: &[u16], number: u16, want: &str) {
    let named = Board::from_fen(fen).unwrap().name_standard(&listed(list), listed(&[number])[0]);
    assert_eq!(named.as_deref(), Ok(want));
    for spare in [0, 3] {
        let mut room = vec![0xA5; want.len() + spare];
        assert_eq!(lent::san_name_standard(&record(fen), list, u64::from(number), &mut room), Ok(want.len()));
        assert_eq!(room, [want.as_bytes(), &vec![0xA5; spare]].concat());
    }
    assert_eq!(read(fen, list, want), Ok(number));
}

/// A move has no name, with this refusal and no byte written in a room of any length.
fn is_refused(record: &Record, list: &[u16], number: u64, want: Error) {
    for length in 0..=9 {
        let mut room = vec![0xA5; length];
        assert_eq!(lent::san_name_standard(record, list, number, &mut room), Err(want));
        assert!(room.iter().all(|&byte| byte == 0xA5), "{want}: a refused call has written");
    }
}

#[test]
fn promotions() {
    let pawn = "8/4P3/8/8/8/8/8/8 w - -";
    let all = [24_372, 20_276, 16_180, 12_084, 3_892];
    for (number, name) in all.into_iter().zip(["e8=Q", "e8=R", "e8=B", "e8=N", "e8"]) {
        is_named(pawn, &all, number, name);
        assert_eq!(read(pawn, &all, format!("{name}+")), Ok(number));
        assert_eq!(read(pawn, &all, format!("e7{name}#")), Ok(number));
    }
    for text in ["e8Q", "e8q", "e8=", "e8=q", "e8=K", "e8=P", "e8=Q=Q", "e8==Q", "e8=Q++", "e8=Q+#", "e8+=Q", "e8=Q!", "e=Q", "=Q"] {
        assert_eq!(read(pawn, &all, text), NO_SAN, "{text}");
    }
    assert_eq!(read(pawn, &[24_372], "e8"), NO_SAN);
}

#[test]
fn en_passant_and_other_captures() {
    let pawn = "8/8/8/4P3/8/8/8/8 w - -";
    is_named(pawn, &[2788], 2788, "exd6");
    for text in ["exd6+", "e5xd6", "e5xd6#"] {
        assert_eq!(read(pawn, &[2788], text), Ok(2788), "{text}");
    }
    for text in ["d6", "xd6", "5xd6", "ed6", "e5d6", "exd6 e.p.", "exd6e.p.", "exd6 ", "exd", "exd6x", "dxd6"] {
        assert_eq!(read(pawn, &[2788], text), NO_SAN, "{text}");
    }
    let taken = "8/8/3p4/4P3/8/8/8/8 w - -";
    is_named(taken, &[2788], 2788, "exd6");
    assert_eq!((read(taken, &[2788], "xd6"), read(taken, &[2788], "ed6")), (NO_SAN, NO_SAN));
    // A pawn that goes straight ahead to an occupied square takes: only its file makes the text one of a pawn's capture.
    let ahead = "8/8/4p3/4P3/8/8/8/8 w - -";
    assert_eq!((read(ahead, &[2852], "exe6"), read(ahead, &[2852], "e6"), read(ahead, &[2852], "xe6")), (Ok(2852), NO_SAN, NO_SAN));
    is_named(ahead, &[2852], 2852, "exe6");
}

#[test]
fn castling() {
    let (king, rook) = ("8/8/8/8/8/8/8/4K3 w - -", "8/8/8/8/8/8/8/4R3 w - -");
    for text in ["O-O", "O-O+", "O-O#", "Kg1", "Kg1+", "Ke1g1"] {
        assert_eq!(read(king, &[388], text), Ok(388), "{text}");
    }
    for text in ["O-O-O", "O-O++", "O-O ", "O-O!", "O-O-", "0-0", "o-o", "OO", "O-O-O+"] {
        assert_eq!(read(king, &[388], text), NO_SAN, "{text}");
    }
    for text in ["O-O", "O-O+", "O-O#"] {
        assert_eq!(read(rook, &[388], text), NO_SAN, "{text}");
    }
    is_named(king, &[388, 132], 388, "O-O");
    is_named(king, &[388, 132], 132, "O-O-O");
    is_named(rook, &[388], 388, "Rg1");
    is_refused(&record(rook), &[388, 388], 388, Error::NoName);
    // A move that is listed twice is listed; and the king may be the other side's.
    is_named(king, &[388, 388], 388, "O-O");
    is_named("8/8/8/8/8/8/8/4k3 w - -", &[388], 388, "O-O");
    is_named("4k3/8/8/8/8/8/8/8 b - -", &[4028, 3772], 3772, "O-O-O");
    assert_eq!(read("4k3/8/8/8/8/8/8/4K3 b - -", &[388], "O-O"), NO_SAN);
}

#[test]
fn knights() {
    is_named(KNIGHT, &[1153], 1153, "Nc3");
    for text in ["Nc3+", "Nc3#", "Nbc3", "N1c3", "Nb1c3"] {
        assert_eq!(read(KNIGHT, &[1153], text), Ok(1153), "{text}");
    }
    for text in ["Nc3+?!", "Nc3x", "Nxc3", "Nc3=Q", "Nc3++", "Nc", "N", "", "c3", "Bc3", "Nac3", "Nc3c3", "\u{ff}"] {
        assert_eq!(read(KNIGHT, &[1153], text), NO_SAN, "{text}");
    }
    assert_eq!((read(KNIGHT, &[], "Nc3"), read(KNIGHT, &[1153, 1153], "Nc3")), (NO_SAN, NO_SAN));
    let taken = "8/8/8/8/8/2p5/8/1N6 w - -";
    is_named(taken, &[1153], 1153, "Nxc3");
    assert_eq!((read(taken, &[1153], "Nc3"), read(taken, &[1153], "Nc3x"), read(taken, &[1153], "Nb1x")), (NO_SAN, NO_SAN, NO_SAN));
}

#[test]
fn the_longest_and_the_shortest_name() {
    let three = "8/8/8/1N6/8/2p5/8/1N1N4 w - -";
    let list = [21_633, 21_665, 21_635];
    for (number, name) in list.into_iter().zip(["Nb1xc3=Q", "N5xc3=Q", "Ndxc3=Q"]) {
        is_named(three, &list, number, name);
    }
    for needed in [0, 7] {
        let mut room = vec![0xA5; needed];
        assert_eq!(lent::san_name_standard(&record(three), &list, 21_633, &mut room), Err(Error::OutputTooShort { needed: 8 }));
        assert!(room.iter().all(|&byte| byte == 0xA5));
    }
    is_named("8/8/8/8/8/8/4P3/8 w - -", &[1804], 1804, "e4");
}

#[test]
fn names_of_one_list() {
    let board = Board::from_fen("r3k2r/1P6/8/3pP3/8/2n5/1N1N4/R3K2R w KQkq d6").unwrap();
    let list = moves("b2c4 d2c4 e1g1 e1c1 e5d6 b7a8q b7a8n b7b8r e1e2");
    let names = ["Nbc4", "Ndc4", "O-O", "O-O-O", "exd6", "bxa8=Q", "bxa8=N", "b8=R", "Ke2"];
    for (&made, name) in list.iter().zip(names) {
        assert_eq!(board.name_standard(&list, made).as_deref(), Ok(name));
        assert_eq!(board.read_san_standard(&list, name), Ok(made));
    }
}

#[test]
fn refusals_in_their_order() {
    let (knight, mut bad) = (record(KNIGHT), record(KNIGHT));
    bad.numbers[67] = 9;
    assert_eq!(lent::san_read_standard(&bad, &[28_672], b"Nc4"), Err(Error::OutOfRange));
    is_refused(&bad, &[28_672], 70_000, Error::OutOfRange);
    let long = [1153; 256];
    for list in [&long[..], &[1153, 28_672], &[65_535]] {
        assert_eq!(lent::san_read_standard(&knight, list, b"Nc4"), Err(Error::ListOutOfRange));
        is_refused(&knight, list, 70_000, Error::ListOutOfRange);
    }
    for number in [0, 1154, 28_672, 65_536 + 1153, 70_000, (1 << 32) + 1153, u64::MAX] {
        is_refused(&knight, &[1153], number, Error::MoveNotListed);
    }
    is_refused(&knight, &[1153, 1153], 1153, Error::NoName);
    is_refused(&record("8/4P3/8/8/8/8/8/8 w - -"), &[3892, 28_468], 28_468, Error::NoName);
    assert_eq!(lent::san_name_standard(&knight, &[1153], 1153, &mut [0; 2]), Err(Error::OutputTooShort { needed: 3 }));
    assert_eq!(lent::san_read_standard(&knight, &long[..255], b"Nc3"), Err(Error::InvalidSanMove));
}
