//! The rules one by one, by rows from the articles of the Laws and from what is settled for records of no game.

use crate::common::{legal, odd, read, texts};
use menkhodur::lent::{self, Record};
use menkhodur::{Error, Lent};
use menkhodur_moves::{fitting, in_check};

/// Asks for the moves of a record that leave a square.
fn from(fen: &str, square: &str, want: &str) {
    let list = texts(&legal(&read(fen)));
    let found: Vec<&str> = list.split_whitespace().filter(|text| text.starts_with(square)).collect();
    assert_eq!(found.join(" "), want, "{fen}");
}

#[test]
fn pawns_step_take_and_promote() {
    from("4k3/8/8/8/8/8/4P3/4K3 w - -", "e2", "e2e3 e2e4");
    from("4k3/8/8/8/8/4p3/4P3/4K3 w - -", "e2", "");
    from("4k3/8/8/8/4p3/8/4P3/4K3 w - -", "e2", "e2e3");
    from("4k3/8/8/8/8/3p1p2/4P3/4K3 w - -", "e2", "e2d3 e2e3 e2e4 e2f3");
    from("4k3/4p3/3P1P2/8/8/8/8/4K3 b - -", "e7", "e7d6 e7e5 e7e6 e7f6");
    from("4k3/8/8/8/8/p6P/7p/4K3 w - -", "h3", "h3h4");
    from("3r4/4P3/8/8/8/8/k7/4K3 w - -", "e7", "e7d8b e7d8n e7d8q e7d8r e7e8b e7e8n e7e8q e7e8r");
    from("4k3/8/8/8/8/8/K3p3/8 b - -", "e2", "e2e1b e2e1n e2e1q e2e1r");
}

#[test]
fn pawns_where_no_pawn_can_be() {
    from("8/8/8/8/8/8/8/4P3 w - -", "e1", "e1e2");
    from("8/8/8/8/8/8/3p1p2/4P3 w - -", "e1", "e1d2 e1e2 e1f2");
    from("4P3/8/8/8/8/8/8/8 w - -", "e8", "");
    from("4p3/8/8/8/8/8/8/8 b - -", "e8", "e8e7");
    from("8/8/8/8/8/8/8/4p3 b - -", "e1", "");
}

#[test]
fn capture_in_passing() {
    from("4k3/8/8/3pP3/8/8/8/4K3 w - d6", "e5", "e5d6 e5e6");
    from("4k3/8/8/3pP3/8/8/8/4K3 w - -", "e5", "e5e6");
    from("4k3/8/8/8/3pP3/8/8/4K3 b - e3", "d4", "d4d3 d4e3");
    // No pawn, another man, or one of the own colour on the square passed; and a man behind it.
    from("4k3/8/8/4P3/8/8/8/4K3 w - d6", "e5", "e5e6");
    from("4k3/8/8/3nP3/8/8/8/4K3 w - d6", "e5", "e5e6");
    from("4k3/8/8/3PP3/8/8/8/4K3 w - d6", "e5", "e5e6");
    from("4k3/8/3n4/3pP3/8/8/8/4K3 w - d6", "e5", "e5d6 e5e6");
    from("4k3/8/3N4/3pP3/8/8/8/4K3 w - d6", "e5", "e5e6");
    // The file's square has nothing to do with where the board ends.
    from("4k3/8/8/p6P/8/8/8/4K3 w - a6", "h5", "h5h6");
    from("4k3/8/8/7p/P7/8/8/4K3 w - h6", "a4", "a4a5");
    // Both pawns leave the rank.
    from("8/8/8/K2pP2r/8/8/8/4k3 w - d6", "e5", "e5e6");
    from("4K3/8/8/8/k2pP2R/8/8/8 b - e3", "d4", "d4d3");
    // Pinned along the diagonal on which it takes, and on another.
    from("8/8/2b5/3pP3/8/8/8/K6k w - d6", "e5", "e5d6 e5e6");
    from("7b/8/8/3pP3/8/8/8/K6k w - d6", "e5", "");
    // It takes the pawn that gives check, or stops another's check.
    from("8/8/8/2pP4/1K6/8/8/7k w - c6", "d5", "d5c6");
    from("7b/8/8/2pP4/8/K7/8/7k w - c6", "d5", "d5c6 d5d6");
    from("7k/8/5K2/2pP4/8/8/1b6/8 w - c6", "d5", "");
    from("6k1/8/K1r5/2pP4/8/8/8/8 w - c6", "d5", "d5c6");
}

#[test]
fn pins() {
    from("4r1k1/8/8/8/8/4R3/8/4K3 w - -", "e3", "e3e2 e3e4 e3e5 e3e6 e3e7 e3e8");
    from("6k1/8/8/8/8/8/8/K2R3r w - -", "d1", "d1b1 d1c1 d1e1 d1f1 d1g1 d1h1");
    from("6kb/8/8/8/3B4/8/8/K7 w - -", "d4", "d4b2 d4c3 d4e5 d4f6 d4g7 d4h8");
    from("b5k1/8/8/3B4/8/8/8/7K w - -", "d5", "d5a8 d5b7 d5c6 d5e4 d5f3 d5g2");
    from("4r1k1/8/8/8/8/4N3/8/4K3 w - -", "e3", "");
    from("6k1/8/8/8/7b/6P1/8/4K3 w - -", "g3", "g3h4");
    from("4r1k1/8/8/8/8/3p4/4P3/4K3 w - -", "e2", "e2e3 e2e4");
    // Two men in the way, or another's man, pin nobody.
    from("4r1k1/8/8/4P3/8/4N3/8/4K3 w - -", "e3", "e3c2 e3c4 e3d1 e3d5 e3f1 e3f5 e3g2 e3g4");
    from("4r1k1/8/8/4p3/8/4N3/8/4K3 w - -", "e3", "e3c2 e3c4 e3d1 e3d5 e3f1 e3f5 e3g2 e3g4");
    from("4b1k1/8/8/8/8/4N3/8/4K3 w - -", "e3", "e3c2 e3c4 e3d1 e3d5 e3f1 e3f5 e3g2 e3g4");
}

#[test]
fn checks() {
    // Along the ray there is no escape.
    from("4r1k1/8/8/8/4K3/8/8/8 w - -", "e4", "e4d3 e4d4 e4d5 e4f3 e4f4 e4f5");
    // A check is answered by taking, by a man between, or by the king.
    assert_eq!(texts(&legal(&read("4r1k1/8/8/8/B7/8/3N4/3NK3 w - -"))), "a4e8 d1e3 d2e4 e1f1 e1f2");
    // Against two only the king helps.
    assert_eq!(texts(&legal(&read("4r1k1/8/8/8/B7/5n2/3N4/3NK3 w - -"))), "e1f1 e1f2");
    assert_eq!(texts(&legal(&read("k7/8/8/8/8/8/5PPP/r5K1 w - -"))), "");
    assert!(in_check(&read("k7/8/8/8/8/8/5PPP/r5K1 w - -")));
    assert_eq!(texts(&legal(&read("k7/2Q5/2K5/8/8/8/8/8 b - -"))), "");
    assert!(!in_check(&read("k7/2Q5/2K5/8/8/8/8/8 b - -")));
    // A king takes an undefended man only, and does not stand beside the other king.
    from("6k1/8/8/8/8/8/4q3/4K3 w - -", "e1", "e1e2");
    from("4r1k1/8/8/8/8/8/4q3/4K3 w - -", "e1", "");
    from("8/8/8/8/8/4k3/8/4K3 w - -", "e1", "e1d1 e1f1");
}

#[test]
fn castling() {
    let king = |fen: &str, want: &str| {
        let list = texts(&legal(&read(fen)));
        let found: Vec<&str> = list.split_whitespace().filter(|text| ["e1g1", "e1c1", "e8g8", "e8c8"].contains(text)).collect();
        assert_eq!(found.join(" "), want, "{fen}");
    };
    king("4k3/8/8/8/8/8/8/R3K2R w KQ -", "e1c1 e1g1");
    king("r3k2r/8/8/8/8/8/8/4K3 b kq -", "e8c8 e8g8");
    king("4k3/8/8/8/8/8/8/R3K2R w K -", "e1g1");
    king("4k3/8/8/8/8/8/8/R3K2R w Q -", "e1c1");
    king("4k3/8/8/8/8/8/8/R3K2R w kq -", "");
    // Men between, on the b-file too.
    king("4k3/8/8/8/8/8/8/RN2K1NR w KQ -", "");
    king("4k3/8/8/8/8/8/8/Rn2Kn1R w KQ -", "");
    // Out of check, through it, into it.
    king("4k3/8/8/8/8/8/4r3/R3K2R w KQ -", "");
    king("4k3/8/8/8/8/8/5r2/R3K2R w KQ -", "e1c1");
    king("4k3/8/8/8/8/8/6r1/R3K2R w KQ -", "e1c1");
    king("4k3/8/8/8/8/8/3r4/R3K2R w KQ -", "e1g1");
    king("4k3/8/8/8/8/8/2r5/R3K2R w KQ -", "e1g1");
    // The rook and the b-file may be attacked.
    king("4k3/8/8/8/8/8/r6r/R3K2R w KQ -", "e1c1 e1g1");
    king("4k3/8/8/8/8/8/1r6/R3K2R w KQ -", "e1c1 e1g1");
    // King and rook of the own colour at home.
    king("4k3/8/8/8/8/8/8/R2K3R w KQ -", "");
    king("4k3/8/8/8/8/8/8/4K3 w KQ -", "");
    king("4k3/8/8/8/8/8/8/B3K2Q w KQ -", "");
    king("8/4k3/8/8/8/8/8/r3K2R w KQ -", "");
    king("8/8/8/8/8/8/8/R3k2R w KQ -", "");
    // With a second king, whether he is attacked matters too.
    king("8/8/8/8/K7/8/8/R3K2R w KQ -", "e1c1 e1g1");
    king("r7/8/8/8/K7/8/8/R3K2R w KQ -", "");
}

#[test]
fn kings_that_are_missing_or_many() {
    let rook = "e3a3 e3b3 e3c3 e3d3 e3e1 e3e2 e3e4 e3e5 e3e6 e3e7 e3e8 e3f3 e3g3 e3h3";
    from("4r3/8/8/8/8/4R3/8/8 w - -", "e3", rook);
    assert!(!in_check(&read("4r3/8/8/8/8/8/8/4R3 w - -")));
    // Two kings, one of them attacked: he goes or another man comes between, but not the other king, who would be attacked there.
    assert!(in_check(&read("4r3/8/8/8/8/8/8/K3K3 w - -")) && in_check(&read("r7/8/8/8/8/8/8/K3K3 w - -")));
    assert_eq!(texts(&legal(&read("4r3/8/8/8/8/B7/8/K3K3 w - -"))), "a3e7 e1d1 e1d2 e1f1 e1f2");
    assert_eq!(texts(&legal(&read("4r3/8/8/8/8/3K4/8/4K3 w - -"))), "e1d1 e1d2 e1f1 e1f2");
    // Both attacked by one man: neither may go, and the man is taken.
    assert_eq!(texts(&legal(&read("2R5/8/8/8/8/8/2n5/K3K3 w - -"))), "c8c2");
    // A king who stands before another.
    from("4r3/8/8/8/4K3/8/8/4K3 w - -", "e4", "");
    from("4r3/8/8/8/4K3/8/8/4K3 w - -", "e1", "");
}

#[test]
fn the_other_king_is_never_taken() {
    from("8/8/8/8/8/8/8/R2k4 w - -", "a1", "a1a2 a1a3 a1a4 a1a5 a1a6 a1a7 a1a8 a1b1 a1c1");
    from("8/8/8/3k4/4P3/8/8/8 w - -", "e4", "e4e5");
    from("8/8/8/8/3k4/4K3/8/8 w - -", "e3", "e3d2 e3e2 e3f2 e3f3 e3f4");
    from("8/8/8/8/8/5k2/8/4N3 w - -", "e1", "e1c2 e1d3 e1g2");
}

#[test]
fn a_record_out_of_range_is_refused() {
    let good = odd(5, 1)[0];
    let bad = |place: usize, number: u8| {
        let mut record = good;
        record.numbers[place] = number;
        record
    };
    let squares = (0..64).flat_map(|place| (13..=255).map(move |number| (place, number)));
    let others = [(64, 2), (65, 4), (66, 4), (67, 9)].into_iter().flat_map(|(place, over)| (over..=255).map(move |number| (place, number)));
    let counters = [(10_000, 1), (65_535, 1), (0, 0), (0, 10_000), (0, 65_535)];
    let counters = counters.map(|(half_moves, full_moves)| Record { half_moves, full_moves, ..good });
    for record in squares.chain(others).map(|(place, number)| bad(place, number)).chain(counters) {
        let mut list = Lent::new();
        assert_eq!(lent::san_read_standard(&record, &[], b"e4"), Err(Error::OutOfRange));
        assert_eq!(menkhodur_moves::legal(&record, &mut list), Err(Error::OutOfRange));
        assert_eq!(fitting(&record, b"e4", &mut list), Err(Error::OutOfRange));
        assert_eq!(fitting(&record, b"", &mut list), Err(Error::OutOfRange));
        assert!(!in_check(&record));
    }
}
